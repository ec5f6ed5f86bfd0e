//! What a fault message shows: "the record's own bytes, a part of the table or
//! of the directive list, whichever holds it: for 3 or an unknown directive the
//! kind byte only; for a cut record or 9 the rest; for 1, 15, an over-long list,
//! a pass or a stop the empty part at the table's start."

use crate::machine::{directive_length, MAX_DIRECTIVES};
use crate::table::record_length;
use crate::{Outcome, Verdict};

/// Which of the two lent slices holds the part.
#[derive(Clone, Copy, Debug, PartialEq, Eq)]
pub enum Slice {
    Table,
    Directives,
}

/// A part of one of the two lent slices.
#[derive(Clone, Copy, Debug, PartialEq, Eq)]
pub struct Part {
    pub slice: Slice,
    pub offset: usize,
    pub length: usize,
}

impl Part {
    /// "the empty part at the table's start"
    pub const NONE: Part = Part { slice: Slice::Table, offset: 0, length: 0 };

    /// The part's bytes.
    pub fn of<'a>(&self, table: &'a [u8], directives: &'a [u8]) -> &'a [u8] {
        let slice = match self.slice {
            Slice::Table => table,
            Slice::Directives => directives,
        };
        &slice[self.offset..self.offset + self.length]
    }
}

/// What the message of a verdict shows.
pub fn of_verdict(verdict: &Verdict, table: &[u8]) -> Part {
    match *verdict {
        Verdict::Accepted { .. } => Part::NONE,
        Verdict::Refused { number, place } => of_fault(number, place, table, &[]),
    }
}

/// What the message of a run's outcome shows.
pub fn of_outcome(outcome: &Outcome, table: &[u8], directives: &[u8]) -> Part {
    match *outcome {
        Outcome::Stopped { .. } => Part::NONE,
        Outcome::Refused { number, place } => of_fault(number, place, table, directives),
    }
}

/// What the message of a fault, 1 to 16, shows. The fault must be one that the
/// table and directives have; any other number shows nothing.
pub fn of_fault(number: u8, place: usize, table: &[u8], directives: &[u8]) -> Part {
    let in_table = |length| Part { slice: Slice::Table, offset: place, length };
    match number {
        // "for a cut record or 9 the rest"; where the table ends and a record is
        // due, the rest is empty
        2 | 9 => in_table(table.len() - place),
        // "for 3 [...] the kind byte only"
        3 => in_table(1),
        4..=8 | 10..=14 => in_table(record_length(table[place]).unwrap_or(1)),
        16 if directives.len() <= MAX_DIRECTIVES => {
            let rest = directives.len() - place;
            let length = match directive_length(directives[place]) {
                // "an unknown directive the kind byte only"
                None => 1,
                // cut: the rest; branch byte over 1: its own bytes
                Some(length) => length.min(rest),
            };
            Part { slice: Slice::Directives, offset: place, length }
        }
        _ => Part::NONE,
    }
}
