//! An implementation with an error put in, to see that the comparison finds it.

use crate::sides::{Rattle, Second, Side};
use second::gen::{self, Rules};
use second::message::{Part, Slice};
use second::{table, Fault, Outcome, Verdict};

#[derive(Clone, Copy, Debug, PartialEq, Eq)]
pub enum Error {
    /// 12 at an ENDWHILE is answered one byte too late.
    PlaceOfFault12,
    /// Fault 13 passes.
    Passes13,
    /// Bytes after the last RETURN are not seen.
    Passes9,
    /// INIT leaves arrays as they are, the rule before order 3.
    InitKeepsArrays,
    /// A message for 4 shows the kind byte only.
    ShowsKindOnly,
    /// A message may show bytes past the end.
    ShowsPastTheEnd,
    /// One step more is told than was made.
    OneStepMore,
    /// The place of stop 22 is the next record's.
    PlaceOfStop22,
    /// Register 0 keeps its first value where the run misspeculates.
    LosesRegister0,
    /// The last word of memory keeps its first value.
    LosesLastWord,
    /// A byte after the last observation is set to 0.
    ByteAfterTheEnd,
    /// The last byte of room is not written.
    ByteMissing,
    /// A refused run has set register 0.
    RefusalWrites,
    /// A list of 16,385 bytes is taken.
    TakesLongerList,
    /// The flag is always told clear.
    FlagToldClear,
    /// The first observation tells whether the last register is odd: what only two runs with different secrets show.
    ObservesSecret,
}

impl Error {
    pub const ALL: [Error; 16] = [
        Error::PlaceOfFault12,
        Error::Passes13,
        Error::Passes9,
        Error::InitKeepsArrays,
        Error::ShowsKindOnly,
        Error::ShowsPastTheEnd,
        Error::OneStepMore,
        Error::PlaceOfStop22,
        Error::LosesRegister0,
        Error::LosesLastWord,
        Error::ByteAfterTheEnd,
        Error::ByteMissing,
        Error::RefusalWrites,
        Error::TakesLongerList,
        Error::FlagToldClear,
        Error::ObservesSecret,
    ];

    pub fn named(name: &str) -> Option<Error> {
        Error::ALL.iter().copied().find(|error| format!("{:?}", error) == name)
    }
}

/// The two sides to compare, the first with an error if one is named. With `ObservesSecret` both have it, so that
/// they agree and only the comparison of two runs can find it.
pub fn sides(error: Option<Error>) -> (Box<dyn Side>, Box<dyn Side>) {
    match error {
        None => (Box::new(Rattle), Box::new(Second)),
        Some(error @ Error::ObservesSecret) => {
            (Box::new(Planted { side: Rattle, error }), Box::new(Planted { side: Second, error }))
        }
        Some(error) => (Box::new(Planted { side: Rattle, error }), Box::new(Second)),
    }
}

/// A side with an error.
pub struct Planted<S> {
    pub side: S,
    pub error: Error,
}

fn verdict_by(rules: Rules, table: &[u8]) -> Verdict {
    match gen::check_by(rules, table) {
        Ok(functions) => Verdict::Accepted { functions, bytes: table.len() },
        Err(Fault { number, place }) => Verdict::Refused { number, place },
    }
}

impl<S: Side> Side for Planted<S> {
    fn check(&self, table: &[u8]) -> Verdict {
        let verdict = self.side.check(table);
        match (self.error, verdict) {
            (Error::InitKeepsArrays, _) => verdict_by(Rules::InitKeepsArrays, table),
            (Error::PlaceOfFault12, Verdict::Refused { number: 12, place })
                if table[place] == table::kind::ENDWHILE =>
            {
                Verdict::Refused { number: 12, place: place + 1 }
            }
            (Error::Passes13, Verdict::Refused { number: 13, .. })
            | (Error::Passes9, Verdict::Refused { number: 9, .. }) => {
                Verdict::Accepted { functions: usize::from(table[3]), bytes: table.len() }
            }
            _ => verdict,
        }
    }

    fn shown(&self, table: &[u8], list: &[u8], number: u8, place: usize) -> Part {
        match self.error {
            Error::ShowsKindOnly if number == 4 => {
                Part { slice: Slice::Table, offset: place, length: 1 }
            }
            Error::ShowsPastTheEnd if number == 3 && place >= table.len() => {
                Part { slice: Slice::Table, offset: place, length: 1 }
            }
            _ => self.side.shown(table, list, number, place),
        }
    }

    fn run(
        &self,
        table: &[u8],
        registers: &mut [u32],
        memory: &mut [u32],
        list: &[u8],
        observations: &mut [u8],
    ) -> Outcome {
        let (first_register, last_word) = (registers.first().copied(), memory.last().copied());
        let (last_byte, secret) = (observations.last().copied(), registers.last().copied());
        let list = match self.error {
            Error::TakesLongerList if list.len() == 16_385 => &list[..16_384],
            _ => list,
        };
        let mut outcome = self.side.run(table, registers, memory, list, observations);
        match (self.error, &mut outcome) {
            (Error::OneStepMore, Outcome::Stopped { steps, .. }) => *steps += 1,
            (Error::PlaceOfStop22, Outcome::Stopped { number: 22, place, .. }) => *place += 1,
            (Error::LosesRegister0, Outcome::Stopped { misspeculating: true, .. }) => {
                set(registers.first_mut(), first_register);
            }
            (Error::LosesLastWord, Outcome::Stopped { .. }) => {
                set(memory.last_mut(), last_word);
            }
            (Error::ByteMissing, Outcome::Stopped { .. }) => {
                set(observations.last_mut(), last_byte);
            }
            (Error::ByteAfterTheEnd, Outcome::Stopped { steps, .. }) => {
                // Each step observes six bytes at most.
                set(observations.get_mut(6 * *steps), Some(0));
            }
            (Error::RefusalWrites, Outcome::Refused { .. }) => {
                set(registers.first_mut(), Some(1));
            }
            (Error::FlagToldClear, Outcome::Stopped { masked, .. }) => *masked = false,
            (Error::ObservesSecret, Outcome::Stopped { .. }) => {
                let odd = secret.map_or(0, |word| word as u8 & 1);
                set(observations.first_mut(), Some(odd));
            }
            _ => {}
        }
        outcome
    }
}

fn set<T>(place: Option<&mut T>, value: Option<T>) {
    if let (Some(place), Some(value)) = (place, value) {
        *place = value;
    }
}
