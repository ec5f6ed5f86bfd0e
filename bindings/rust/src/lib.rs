//! Likunjavo for Rust: the proved check, message and run of instruction tables.
//!
//! The functions are those of the archive that `tools/archive` writes. Nothing has to be tested before a
//! call: none of them asks more of what it is lent than a Rust reference gives, and empty slices are as good as
//! others. Nothing is kept between two calls, so several threads may call at once. A call needs at most 16 KiB of
//! stack.
//!
//! A table that passes:
//!
//! ```
//! use likunjavo::{check, Verdict};
//!
//! let passes = [
//!     0x01, 2, 1, 1, // two registers, one array, one function
//!     0x02, 4, 0, // the array has four words
//!     0x03, 24, 0, 0, 0, 0, 0, 0, 0, 0, 0, 0x0a, 0, 0, 0, 0, 0, // the signature
//!     0x15, // INIT
//!     0x13, 0, 0, 1, // r0 = a0[r1]
//!     0x17, 0, 0, // PROTECT r0
//!     0x13, 1, 0, 0, // r1 = a0[r0]
//!     0x25, // RETURN
//! ];
//! let verdict = check(&passes);
//! assert_eq!(verdict, Verdict::Accepted { functions: 1, bytes: 37 });
//! assert_eq!(verdict.to_string(), "accepted 1 functions 37 bytes");
//! ```
//!
//! One that does not, and a line for the log: number and place, the table's length, the bytes that are shown in
//! hexadecimal, and the fault in words. Registers and memory do not belong there, they may be secret.
//!
//! ```
//! use likunjavo::{check, shown, Verdict};
//!
//! # let refused = [
//! #     0x01, 2, 1, 1, 0x02, 4, 0, 0x03, 24, 0, 0, 0, 0, 0, 0, 0, 0, 0, 0x0a, 0, 0, 0, 0, 0,
//! #     0x13, 0, 0, 1, 0x13, 1, 0, 0, 0x25,
//! # ];
//! // The same without INIT and PROTECT.
//! let verdict = check(&refused);
//! if let Verdict::Refused { fault, place } = verdict {
//!     let bytes = shown(&refused, &[], fault.number(), place).of(&refused, &[]);
//!     let line = format!("{} of {} bytes, {:02x?}: {}", verdict, refused.len(), bytes, fault);
//!     assert_eq!(
//!         line,
//!         "refused 10 at 28 of 33 bytes, [13, 01, 00, 00]: \
//!          An index, or the register of an IF or WHILE, is not public."
//!     );
//! }
//! # assert!(!verdict.passes());
//! ```

#![warn(missing_docs)]

mod numbers;

pub use numbers::{Fault, Stop};

use std::convert::TryFrom;
use std::fmt;

/// What the check of a table answers.
#[derive(Clone, Copy, Debug, PartialEq, Eq)]
#[must_use]
pub enum Verdict {
    /// The table passes: it may run on shared hardware.
    Accepted {
        /// How many functions the table has.
        functions: usize,
        /// How many bytes it has.
        bytes: usize,
    },
    /// The table must not run.
    Refused {
        /// The first fault.
        fault: Fault,
        /// Its place, a byte offset from the table's start.
        place: usize,
    },
}

impl Verdict {
    /// Whether the table passes.
    pub fn passes(&self) -> bool {
        matches!(self, Verdict::Accepted { .. })
    }
}

/// The check program's line.
impl fmt::Display for Verdict {
    fn fmt(&self, f: &mut fmt::Formatter<'_>) -> fmt::Result {
        match *self {
            Verdict::Accepted { functions, bytes } => {
                write!(f, "accepted {} functions {} bytes", functions, bytes)
            }
            Verdict::Refused { fault, place } => {
                write!(f, "refused {} at {}", fault.number(), place)
            }
        }
    }
}

/// Which of the two lent slices a part lies in.
#[derive(Clone, Copy, Debug, PartialEq, Eq)]
pub enum Slice {
    /// The table.
    Table,
    /// The list of directives.
    List,
}

/// A part of the table or of the list.
#[derive(Clone, Copy, Debug, PartialEq, Eq)]
pub struct Part {
    /// Where it lies.
    pub slice: Slice,
    /// Where it begins there.
    pub offset: usize,
    /// How many bytes it has.
    pub length: usize,
}

impl Part {
    /// The part's bytes, out of the table and the list that [`shown`] was given.
    ///
    /// # Panics
    ///
    /// If table or list are shorter than those.
    pub fn of<'a>(&self, table: &'a [u8], list: &'a [u8]) -> &'a [u8] {
        let slice = match self.slice {
            Slice::Table => table,
            Slice::List => list,
        };
        &slice[self.offset..self.offset + self.length]
    }
}

/// What a run answers.
#[derive(Clone, Copy, Debug, PartialEq, Eq)]
#[must_use]
pub enum Outcome {
    /// Nothing was run; registers, memory and observations are as they were.
    Refused {
        /// The fault: 1 to 9, 15 or 16.
        fault: Fault,
        /// Its place: for 16 in the list, else in the table.
        place: usize,
    },
    /// The run came to a stop.
    Stopped {
        /// Why it ended.
        stop: Stop,
        /// The place in the table where it stands.
        place: usize,
        /// The steps taken.
        steps: usize,
        /// Whether it misspeculates.
        misspeculating: bool,
        /// Whether the flag is masked.
        masked: bool,
    },
}

/// `refused N at P`, or `stopped N at P after S steps`.
impl fmt::Display for Outcome {
    fn fmt(&self, f: &mut fmt::Formatter<'_>) -> fmt::Result {
        match *self {
            Outcome::Refused { fault, place } => {
                write!(f, "refused {} at {}", fault.number(), place)
            }
            Outcome::Stopped { stop, place, steps, .. } => {
                write!(f, "stopped {} at {} after {} steps", stop.number(), place, steps)
            }
        }
    }
}

// As in bindings/c/likunjavo.h.
extern "C" {
    fn likunjavo_check(table: *const u8, table_length: usize, answer: *mut [u64; 3]);
    fn likunjavo_shown(
        table: *const u8,
        table_length: usize,
        list: *const u8,
        list_length: usize,
        number: u8,
        place: usize,
        answer: *mut [u64; 3],
    );
    fn likunjavo_run(
        table: *const u8,
        table_length: usize,
        registers: *mut u32,
        registers_length: usize,
        memory: *mut u32,
        memory_length: usize,
        list: *const u8,
        list_length: usize,
        observations: *mut u8,
        observations_length: usize,
        answer: *mut [u64; 5],
    );
}

/// Checks a table. Only a table that passes may run on shared hardware.
pub fn check(table: &[u8]) -> Verdict {
    let mut answer = [0; 3];
    // SAFETY: a slice's pointer and length, and an array of our own; the function keeps neither.
    unsafe { likunjavo_check(table.as_ptr(), table.len(), &mut answer) };
    match (fault_of(answer[0]), answer) {
        (None, [0, 0, functions]) => {
            Verdict::Accepted { functions: functions as usize, bytes: table.len() }
        }
        (Some(fault), [1..=14, place, 0]) => Verdict::Refused { fault, place: place as usize },
        _ => undocumented(&answer),
    }
}

/// Which bytes the message for a number at a place shows: the record at fault, or less of it. Give it what [`check`]
/// or [`run`] answered, and the same table and list; after a check, any list.
///
/// The part lies inside the table or list for every number and place, also for those that no call answered.
pub fn shown(table: &[u8], list: &[u8], number: u8, place: usize) -> Part {
    let mut answer = [0; 3];
    // SAFETY: two slices' pointers and lengths, and an array of our own; the function keeps none of them.
    unsafe {
        likunjavo_shown(
            table.as_ptr(),
            table.len(),
            list.as_ptr(),
            list.len(),
            number,
            place,
            &mut answer,
        )
    };
    let [slice, offset, length] = answer;
    let slice = match slice {
        0 => Slice::Table,
        1 => Slice::List,
        _ => undocumented(&answer),
    };
    Part { slice, offset: offset as usize, length: length as usize }
}

/// Runs a table from its entry under a list of directives. The table must read; it need not pass the check.
///
/// `registers` and `memory` hold the words to start from, and afterwards the words that the run left: as many
/// registers as the table has, and the words of all its arrays, which lie one after another. Observations are written
/// from the first byte of `observations` on; the bytes after the last one written stay as they were. Six bytes for
/// each byte of the list are always enough.
pub fn run(
    table: &[u8],
    registers: &mut [u32],
    memory: &mut [u32],
    list: &[u8],
    observations: &mut [u8],
) -> Outcome {
    let mut answer = [0; 5];
    // SAFETY: five slices' pointers and lengths, and an array of our own. The three that are written are lent by
    // `&mut`, so none overlaps another; the function keeps none of them.
    unsafe {
        likunjavo_run(
            table.as_ptr(),
            table.len(),
            registers.as_mut_ptr(),
            registers.len(),
            memory.as_mut_ptr(),
            memory.len(),
            list.as_ptr(),
            list.len(),
            observations.as_mut_ptr(),
            observations.len(),
            &mut answer,
        )
    };
    match (fault_of(answer[0]), stop_of(answer[0]), answer) {
        (Some(fault), _, [_, place, 0, 0, 0]) => Outcome::Refused { fault, place: place as usize },
        (_, Some(stop), [_, place, steps, misspeculating @ 0..=1, masked @ 0..=1]) => {
            Outcome::Stopped {
                stop,
                place: place as usize,
                steps: steps as usize,
                misspeculating: misspeculating == 1,
                masked: masked == 1,
            }
        }
        _ => undocumented(&answer),
    }
}

fn fault_of(number: u64) -> Option<Fault> {
    u8::try_from(number).ok().and_then(Fault::from_number)
}

fn stop_of(number: u64) -> Option<Stop> {
    u8::try_from(number).ok().and_then(Stop::from_number)
}

/// An answer that `likunjavo.h` does not list: the archive and this crate do not belong together.
fn undocumented(answer: &[u64]) -> ! {
    panic!("the archive answered {:?}, which likunjavo.h does not list", answer)
}
