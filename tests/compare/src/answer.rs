//! What a side answers to a case, and where the answers of two sides differ.

use crate::case::Case;
use crate::sides::Side;
use second::gen::RunCase;
use second::machine::{self, MAX_DIRECTIVES};
use second::message::{Part, Slice};
use second::table::{self, record_length};
use second::typing::{Env, SECRET};
use second::{Outcome, Verdict};

/// Everything that a run leaves behind.
#[derive(Clone, Debug, PartialEq, Eq)]
pub struct After {
    pub outcome: Outcome,
    pub shown: Part,
    pub registers: Vec<u32>,
    pub memory: Vec<u32>,
    pub observations: Vec<u8>,
    /// What stands before and after the lent words and bytes is as it was.
    pub margins_kept: bool,
}

#[derive(Clone, Debug, PartialEq, Eq)]
pub enum Answer {
    Check(Verdict, Part),
    Shown(Part),
    Run(After),
    Pair(After, After),
}

/// Why a case fails. (Answers are large, and a difference is rare: hence the boxes.)
#[derive(Clone, Debug, PartialEq, Eq)]
pub enum Difference {
    /// The two sides answer differently.
    Answers { rattle: Box<Answer>, second: Box<Answer> },
    /// Two runs of a table that passes, from states that differ in secrets only, can be told apart.
    Leak { one: Box<After>, other: Box<After> },
    /// What number and place show does not lie where it must.
    Outside { rattle: Box<Answer> },
}

const MARGIN: usize = 3;

/// Words or bytes to lend, with a margin before and after them.
struct Lent<T> {
    all: Vec<T>,
    margin: T,
}

impl<T: Copy + PartialEq> Lent<T> {
    fn new(content: &[T], margin: T) -> Lent<T> {
        let mut all = vec![margin; MARGIN];
        all.extend_from_slice(content);
        all.extend_from_slice(&[margin; MARGIN]);
        Lent { all, margin }
    }

    fn content(&mut self) -> &mut [T] {
        let end = self.all.len() - MARGIN;
        &mut self.all[MARGIN..end]
    }

    fn kept(&self) -> bool {
        let (before, rest) = self.all.split_at(MARGIN);
        let after = &rest[rest.len() - MARGIN..];
        before.iter().chain(after).all(|&word| word == self.margin)
    }
}

fn after(side: &dyn Side, case: &RunCase, registers: &[u32], memory: &[u32]) -> After {
    let (table, list) = (&case.table, &case.directives);
    let mut registers = Lent::new(registers, 0x5a5a_a5a5);
    let mut memory = Lent::new(memory, 0xa5a5_5a5a);
    let mut observations = Lent::new(&case.observations, 0xc3);
    let outcome =
        side.run(table, registers.content(), memory.content(), list, observations.content());
    let shown = match outcome {
        Outcome::Refused { number, place } => side.shown(table, list, number, place),
        Outcome::Stopped { number, place, .. } => side.shown(table, list, number, place),
    };
    After {
        outcome,
        shown,
        margins_kept: registers.kept() && memory.kept() && observations.kept(),
        registers: registers.content().to_vec(),
        memory: memory.content().to_vec(),
        observations: observations.content().to_vec(),
    }
}

pub fn answer(side: &dyn Side, case: &Case) -> Answer {
    match case {
        Case::Check { table } => {
            let verdict = side.check(table);
            let shown = match verdict {
                Verdict::Accepted { .. } => side.shown(table, &[], 0, 0),
                Verdict::Refused { number, place } => side.shown(table, &[], number, place),
            };
            Answer::Check(verdict, shown)
        }
        Case::Shown { table, list, number, place } => {
            Answer::Shown(side.shown(table, list, *number, *place))
        }
        Case::Run(run) => Answer::Run(after(side, run, &run.registers, &run.memory)),
        Case::Pair { first, registers, memory } => Answer::Pair(
            after(side, first, &first.registers, &first.memory),
            after(side, first, registers, memory),
        ),
    }
}

/// What both sides answer, or what is wrong with the first side's answer.
pub fn compared(case: &Case, rattle: &dyn Side, second: &dyn Side) -> Result<Answer, Difference> {
    let ours = answer(rattle, case);
    if let (Case::Shown { table, list, number, place }, Answer::Shown(part)) = (case, &ours) {
        if !lies_within(part, table, list) {
            return Err(Difference::Outside { rattle: Box::new(ours) });
        }
        if !can_be_shown(table, list, *number, *place) {
            return Ok(ours);
        }
    }
    let theirs = answer(second, case);
    if ours != theirs {
        return Err(Difference::Answers { rattle: Box::new(ours), second: Box::new(theirs) });
    }
    if let (Case::Pair { first, registers, memory }, Answer::Pair(one, other)) = (case, &ours) {
        if !alike(one, other) && must_be_alike(second, first, registers, memory) {
            let (one, other) = (Box::new(one.clone()), Box::new(other.clone()));
            return Err(Difference::Leak { one, other });
        }
    }
    Ok(ours)
}

/// Two runs that a neighbour cannot tell apart: they end alike and observe alike.
pub fn alike(one: &After, other: &After) -> bool {
    one.outcome == other.outcome && one.observations == other.observations
}

fn lies_within(part: &Part, table: &[u8], list: &[u8]) -> bool {
    let length = match part.slice {
        Slice::Table => table.len(),
        Slice::Directives => list.len(),
    };
    part.offset.checked_add(part.length).map_or(false, |end| end <= length)
}

/// A record or directive of the kind that the number's message shows stands at the place; 01 says nothing of other
/// places, and the second implementation answers for these alone.
fn can_be_shown(table: &[u8], list: &[u8], number: u8, place: usize) -> bool {
    match number {
        2 | 9 => place <= table.len(),
        3 => place < table.len(),
        4..=8 | 10..=14 => match table.get(place).and_then(|&kind| record_length(kind)) {
            Some(length) => length <= table.len() - place,
            None => false,
        },
        16 => {
            list.len() > MAX_DIRECTIVES
                || list.get(place).map_or(false, |&kind| {
                    machine::directive_length(kind).unwrap_or(1) <= list.len() - place
                })
        }
        _ => true,
    }
}

/// The table passes, and the two states agree wherever the entry's signature says public or transient.
fn must_be_alike(judge: &dyn Side, case: &RunCase, registers: &[u32], memory: &[u32]) -> bool {
    let read = match table::read(&case.table) {
        Ok(read) if matches!(judge.check(&case.table), Verdict::Accepted { .. }) => read,
        _ => return false,
    };
    if registers.len() != case.registers.len() || memory.len() != case.memory.len() {
        return false;
    }
    let input = Env::from_packed(read.input(read.entry()));
    let levels = (0..read.arrays())
        .flat_map(|array| std::iter::repeat(input.array(array as u8)).take(read.words(array)));
    let registers_agree = case
        .registers
        .iter()
        .zip(registers)
        .enumerate()
        .all(|(number, (one, other))| one == other || input.register(number as u8) == SECRET);
    let memory_agrees = case
        .memory
        .iter()
        .zip(memory)
        .zip(levels)
        .all(|((one, other), level)| one == other || level == SECRET);
    registers_agree && memory_agrees
}
