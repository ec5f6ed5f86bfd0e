//! The two implementations behind one trait, so that either can be replaced. Answers are compared as the second
//! implementation gives them; those of the archive are put into the same form.

use second::message::{self, Part, Slice};
use second::{Outcome, Verdict};

pub trait Side {
    fn check(&self, table: &[u8]) -> Verdict;

    fn shown(&self, table: &[u8], list: &[u8], number: u8, place: usize) -> Part;

    fn run(
        &self,
        table: &[u8],
        registers: &mut [u32],
        memory: &mut [u32],
        list: &[u8],
        observations: &mut [u8],
    ) -> Outcome;
}

/// The proved archive.
pub struct Rattle;

fn verdict_of(verdict: likunjavo::Verdict) -> Verdict {
    match verdict {
        likunjavo::Verdict::Accepted { functions, bytes } => Verdict::Accepted { functions, bytes },
        likunjavo::Verdict::Refused { fault, place } => {
            Verdict::Refused { number: fault.number(), place }
        }
    }
}

fn part_of(part: likunjavo::Part) -> Part {
    let slice = match part.slice {
        likunjavo::Slice::Table => Slice::Table,
        likunjavo::Slice::List => Slice::Directives,
    };
    Part { slice, offset: part.offset, length: part.length }
}

fn outcome_of(outcome: likunjavo::Outcome) -> Outcome {
    match outcome {
        likunjavo::Outcome::Refused { fault, place } => {
            Outcome::Refused { number: fault.number(), place }
        }
        likunjavo::Outcome::Stopped { stop, place, steps, misspeculating, masked } => {
            Outcome::Stopped { number: stop.number(), place, steps, misspeculating, masked }
        }
    }
}

impl Side for Rattle {
    fn check(&self, table: &[u8]) -> Verdict {
        verdict_of(likunjavo::check(table))
    }

    fn shown(&self, table: &[u8], list: &[u8], number: u8, place: usize) -> Part {
        part_of(likunjavo::shown(table, list, number, place))
    }

    fn run(
        &self,
        table: &[u8],
        registers: &mut [u32],
        memory: &mut [u32],
        list: &[u8],
        observations: &mut [u8],
    ) -> Outcome {
        outcome_of(likunjavo::run(table, registers, memory, list, observations))
    }
}

/// The second implementation.
pub struct Second;

impl Side for Second {
    fn check(&self, table: &[u8]) -> Verdict {
        second::check(table)
    }

    /// Panics where number and place are not a fault that the table or list can have.
    fn shown(&self, table: &[u8], list: &[u8], number: u8, place: usize) -> Part {
        message::of_fault(number, place, table, list)
    }

    fn run(
        &self,
        table: &[u8],
        registers: &mut [u32],
        memory: &mut [u32],
        list: &[u8],
        observations: &mut [u8],
    ) -> Outcome {
        second::run(table, registers, memory, list, observations)
    }
}
