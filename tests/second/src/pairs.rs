//! Two runs of one table under one directive list, from states that differ only
//! in what the entry's in-environment calls secret.

use crate::gen::{self, Rng, Style, Written};
use crate::table;
use crate::typing::{Env, PUBLIC, SECRET};
use crate::{run, Outcome};

/// What two runs showed.
#[derive(Clone, Debug)]
pub struct Pair {
    /// The list, and what the first run did under it.
    pub written: Written,
    /// The first run's outcome.
    pub outcome: Outcome,
    /// The two states differ at all.
    pub differing: bool,
    /// Outcomes and observations are the same.
    pub alike: bool,
    /// If the entry's RETURN was reached: what its out-environment calls public
    /// is the same afterwards, and what it calls transient too on the right
    /// path.
    pub kept: bool,
}

/// Makes a pair of runs of a table that reads.
pub fn pair(bytes: &[u8], rng: &mut Rng) -> Pair {
    let table = table::read(bytes).expect("the table reads");
    let (mut registers, mut memory) = gen::state(&table, rng);
    let (mut other_registers, mut other_memory) =
        gen::other_secrets(&table, &registers, &memory, rng);
    let differing = registers != other_registers || memory != other_memory;
    let style = match rng.below(5) {
        0 => Style::RIGHT,
        _ => Style::speculating(rng),
    };
    let written = gen::write_directives(&table, &registers, &memory, style, rng);
    let list = &written.list;
    // An observation has at most six bytes for a directive's one.
    let mut observations = vec![0; 6 * list.len()];
    let mut other_observations = observations.clone();
    let outcome = run(bytes, &mut registers, &mut memory, list, &mut observations);
    let other = run(bytes, &mut other_registers, &mut other_memory, list, &mut other_observations);

    let mut kept = true;
    if let Outcome::Stopped { number: 21, misspeculating, .. } = outcome {
        let output = Env::from_packed(table.output(table.entry()));
        let same = |level: u8| level == PUBLIC || level < SECRET && !misspeculating;
        for number in 0..registers.len() {
            if same(output.register(number as u8)) {
                kept &= registers[number] == other_registers[number];
            }
        }
        let mut base = 0;
        for array in 0..table.arrays() {
            let end = base + table.words(array);
            if same(output.array(array as u8)) {
                kept &= memory[base..end] == other_memory[base..end];
            }
            base = end;
        }
    }
    Pair {
        outcome,
        differing,
        alike: outcome == other && observations == other_observations,
        kept,
        written,
    }
}
