//! The numbers that the archive answers with, each with a name and with plain words.

use std::fmt;

/// An enum of numbers: for each its name, the number, and the words.
macro_rules! numbers {
    ($(#[$doc:meta])* $name:ident { $($variant:ident = $number:literal, $words:literal;)* }) => {
        $(#[$doc])*
        #[derive(Clone, Copy, Debug, PartialEq, Eq, PartialOrd, Ord, Hash)]
        #[repr(u8)]
        pub enum $name {
            $(#[doc = $words] $variant = $number,)*
        }

        impl $name {
            /// All of them, in the order of their numbers.
            pub const ALL: &'static [$name] = &[$($name::$variant),*];

            /// The number.
            pub fn number(self) -> u8 {
                self as u8
            }

            /// The one that has this number, if there is one.
            pub fn from_number(number: u8) -> Option<$name> {
                match number {
                    $($number => Some($name::$variant),)*
                    _ => None,
                }
            }

            /// What it means, in a sentence.
            pub fn words(self) -> &'static str {
                match self {
                    $($name::$variant => $words,)*
                }
            }
        }

        /// The words.
        impl fmt::Display for $name {
            fn fmt(&self, f: &mut fmt::Formatter<'_>) -> fmt::Result {
                f.write_str(self.words())
            }
        }
    };
}

numbers! {
    /// Why a table or a run is refused. A check answers with 1 to 14, a run with 1 to 9, 15 and 16. 1 to 9 are
    /// faults of the table's bytes, 10 to 14 of what the routine may give away.
    Fault {
        TableTooLong = 1, "The table is longer than 32,768 bytes.";
        TableCut = 2, "The table ends in the middle of a record, or where a record should begin.";
        WrongKind = 3, "A record's kind is unknown, or may not stand here.";
        OutOfRange = 4, "A number in a record is out of range.";
        WrongPlace = 5, "A place that one record names is not where the other record stands.";
        TooDeep = 6, "Blocks are nested more than 16 deep.";
        CallNotLower = 7, "A CALL of the function itself or of a later one.";
        EntryUpdated = 8, "The entry's signature starts with status updated.";
        BytesAfterEnd = 9, "Bytes stand after the last RETURN.";
        NotPublic = 10, "An index, or the register of an IF or WHILE, is not public.";
        WrongStatus = 11, "An UPDATE or PROTECT stands where the flag does not stand for it.";
        LoopNotKept = 12, "What arrives at a WHILE, or at its ENDWHILE, does not fit the loop's environment.";
        CallDoesNotFit = 13, "What arrives at a CALL does not fit what the function takes.";
        ReturnDoesNotFit = 14, "What arrives at a RETURN does not fit what the signature promises.";
        WrongLength = 15, "The registers or the memory lent are not as many words as the table has.";
        BadList = 16, "The list is longer than 16,384 bytes, or a directive in it is unknown, cut short or wrong.";
    }
}

numbers! {
    /// Why a run ends.
    Stop {
        ListUsedUp = 20, "The list is used up.";
        Returned = 21, "The entry's RETURN is reached.";
        WrongDirective = 22, "The directive is of a wrong kind for the record.";
        InitMisspeculating = 23, "An INIT is reached while the run misspeculates.";
        AccessOutOfRange = 24, "An access is out of range while the run does not misspeculate.";
        NoSuchTarget = 25, "The directive names a word or a return place that there is not.";
        NoRoom = 26, "There is no room left for the observation.";
    }
}
