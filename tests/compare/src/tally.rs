//! What came up in a comparison: one that tries nothing must not count as one that found nothing.

use crate::answer::{alike, After, Answer};
use crate::case::Case;
use second::gen::records;
use second::table::record_length;
use second::{Outcome, Verdict};
use std::collections::BTreeMap;
use std::fmt;

const PASS: u8 = 0;

/// What must come up before a comparison counts.
const DUE_IN_CHECKS: &[u8] = &[PASS, 1, 2, 3, 4, 5, 6, 7, 8, 9, 10, 11, 12, 13, 14];
const DUE_IN_RUNS: &[u8] = &[1, 2, 3, 4, 5, 6, 7, 8, 9, 15, 16, 20, 21, 22, 23, 24, 25, 26];

/// How often each number came up.
type Counts = BTreeMap<u8, u64>;

fn add_counts(to: &mut Counts, from: &Counts) {
    for (number, count) in from {
        *to.entry(*number).or_default() += count;
    }
}

#[derive(Default)]
pub struct Tally {
    pub cases: u64,
    sorts: BTreeMap<&'static str, (u64, Counts)>,
    checks: Counts,
    kinds: Counts,
    runs: Counts,
    steps: u64,
    misspeculating: u64,
    masked: u64,
    pairs_with_other_secrets: u64,
    pairs_told_apart: u64,
}

impl Tally {
    /// Counts a case to which both sides gave this answer.
    pub fn count(&mut self, sort: &'static str, case: &Case, answer: &Answer) {
        self.cases += 1;
        self.sorts.entry(sort).or_default().0 += 1;
        match answer {
            Answer::Check(verdict, _) => {
                let number = match *verdict {
                    Verdict::Accepted { .. } => PASS,
                    Verdict::Refused { number, .. } => number,
                };
                *self.checks.entry(number).or_default() += 1;
                self.came_up(sort, number);
                if let (PASS, Case::Check { table }) = (number, case) {
                    for (_, kind) in records(table) {
                        *self.kinds.entry(kind).or_default() += 1;
                    }
                }
            }
            Answer::Shown(_) => {}
            Answer::Run(after) => self.ran(sort, after),
            Answer::Pair(one, other) => {
                self.ran(sort, one);
                self.ran(sort, other);
                self.pairs_told_apart += u64::from(!alike(one, other));
                if let Case::Pair { first, registers, memory } = case {
                    let other_secrets = first.registers != *registers || first.memory != *memory;
                    self.pairs_with_other_secrets += u64::from(other_secrets);
                }
            }
        }
    }

    /// Counts what another tally has counted.
    pub fn add(&mut self, other: &Tally) {
        self.cases += other.cases;
        for (sort, (cases, numbers)) in &other.sorts {
            let here = self.sorts.entry(sort).or_default();
            here.0 += cases;
            add_counts(&mut here.1, numbers);
        }
        add_counts(&mut self.checks, &other.checks);
        add_counts(&mut self.kinds, &other.kinds);
        add_counts(&mut self.runs, &other.runs);
        self.steps += other.steps;
        self.misspeculating += other.misspeculating;
        self.masked += other.masked;
        self.pairs_with_other_secrets += other.pairs_with_other_secrets;
        self.pairs_told_apart += other.pairs_told_apart;
    }

    fn ran(&mut self, sort: &'static str, after: &After) {
        let number = match after.outcome {
            Outcome::Refused { number, .. } => number,
            Outcome::Stopped { number, steps, misspeculating, masked, .. } => {
                self.steps += steps as u64;
                self.misspeculating += u64::from(misspeculating);
                self.masked += u64::from(masked);
                number
            }
        };
        *self.runs.entry(number).or_default() += 1;
        self.came_up(sort, number);
    }

    fn came_up(&mut self, sort: &'static str, number: u8) {
        *self.sorts.entry(sort).or_default().1.entry(number).or_default() += 1;
    }

    /// What should have come up and did not.
    pub fn missing(&self) -> Vec<String> {
        let never = |counts: &Counts, due: &[u8], of: &str| -> Vec<String> {
            let missing = due.iter().filter(|number| !counts.contains_key(number));
            missing.map(|number| format!("{} in {}", name(*number), of)).collect()
        };
        let mut missing = never(&self.checks, DUE_IN_CHECKS, "a check");
        missing.extend(never(&self.runs, DUE_IN_RUNS, "a run"));
        let kinds = (0..=u8::MAX).filter(|&kind| record_length(kind).is_some());
        let kinds = kinds.filter(|kind| !self.kinds.contains_key(kind));
        missing.extend(kinds.map(|kind| format!("kind {:02X} in a table that passes", kind)));
        for &(count, what) in &[
            (self.misspeculating, "a run that ends misspeculating"),
            (self.masked, "a run that ends with the flag masked"),
            (self.pairs_with_other_secrets, "a pair with different secrets"),
            (self.pairs_told_apart, "a pair of a table that must not pass, told apart"),
        ] {
            if count == 0 {
                missing.push(what.to_string());
            }
        }
        missing
    }
}

fn name(number: u8) -> String {
    match number {
        PASS => "pass".to_string(),
        1..=16 => format!("fault {}", number),
        _ => format!("stop {}", number),
    }
}

impl fmt::Display for Tally {
    fn fmt(&self, f: &mut fmt::Formatter<'_>) -> fmt::Result {
        for (sort, (cases, counts)) in &self.sorts {
            write!(f, "{:<34} {:>8} cases:", sort, cases)?;
            for (number, count) in counts {
                write!(f, "  {} x{}", name(*number), count)?;
            }
            writeln!(f)?;
        }
        write!(f, "records of tables that pass:")?;
        for (kind, count) in &self.kinds {
            write!(f, "  {:02X} x{}", kind, count)?;
        }
        writeln!(f)?;
        writeln!(
            f,
            "{} steps, {} runs that end misspeculating, {} with the flag masked; {} pairs with different secrets, \
             {} pairs of tables that must not pass told apart",
            self.steps,
            self.misspeculating,
            self.masked,
            self.pairs_with_other_secrets,
            self.pairs_told_apart
        )
    }
}
