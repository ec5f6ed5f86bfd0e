//! Cases from seeds, by sorts: one seed gives every sort a few cases.

use crate::case::Case;
use crate::tables;
use second::gen::{self, Rng, Rules, RunCase, Shape, Style};
use second::machine::{kind, MAX_DIRECTIVES};
use second::table::{self, MAX_BYTES};
use second::Outcome;

pub struct Sort {
    pub name: &'static str,
    pub make: fn(u64) -> Vec<Case>,
}

pub const SORTS: &[Sort] = &[
    Sort { name: "check: good", make: |seed| vec![check(gen::good(seed))] },
    Sort { name: "check: spoiled, 10 to 14", make: check_spoiled },
    Sort { name: "check: damaged, 1 to 9", make: check_damaged },
    Sort { name: "check: by wrong rules", make: check_by_wrong_rules },
    Sort { name: "check: altered", make: |seed| vec![check(gen::altered(seed))] },
    Sort { name: "check: mutated", make: |seed| vec![check(gen::mutated(seed))] },
    Sort { name: "check: random", make: |seed| vec![check(gen::random(seed))] },
    Sort { name: "check: about 32,768 bytes", make: check_longest },
    Sort { name: "shown: any number and place", make: shown_anything },
    Sort { name: "run: right path", make: run_right },
    Sort { name: "run: speculating at every chance", make: run_speculating },
    Sort { name: "run: speculating at times", make: run_speculating_at_times },
    Sort { name: "run: noisy lists", make: run_noisy },
    Sort { name: "run: damaged lists", make: run_damaged_lists },
    Sort { name: "run: longest lists", make: run_longest_lists },
    Sort { name: "run: wrong lengths", make: run_wrong_lengths },
    Sort { name: "run: little room", make: run_little_room },
    Sort { name: "run: tables that do not type", make: run_untyped },
    Sort { name: "run: tables that do not read", make: run_unread },
    Sort { name: "run: about 32,768 bytes", make: run_longest_tables },
    Sort { name: "run: a mixture", make: |seed| vec![Case::Run(gen::run_case(seed))] },
    Sort { name: "pair: tables that pass", make: pair_good },
    Sort { name: "pair: tables that must not pass", make: pair_bad },
];

/// Where the inner generator takes the same seed, the sorts would otherwise see the same tables.
fn rng_of(seed: u64, sort: u64) -> Rng {
    Rng::new(seed ^ sort << 40)
}

fn check(table: Vec<u8>) -> Case {
    Case::Check { table }
}

// Checks.

fn check_spoiled(seed: u64) -> Vec<Case> {
    (10..=14).map(|number| check(gen::spoiled(number, seed).0)).collect()
}

fn check_damaged(seed: u64) -> Vec<Case> {
    (1..=9).map(|number| check(gen::damaged(number, seed).0)).collect()
}

fn check_by_wrong_rules(seed: u64) -> Vec<Case> {
    Rules::WRONG.iter().map(|&rules| check(gen::by_rules(rules, seed))).collect()
}

/// A generated table that comes near the limit by itself, or is padded to it and past it, whole or with a byte changed.
fn longest_table(rng: &mut Rng) -> Vec<u8> {
    let mut table = match rng.below(3) {
        0 => gen::good_of(tables::shape_of(MAX_BYTES), rng),
        _ => gen::good_of(Shape::any(rng), rng),
    };
    if rng.chance(3, 4) {
        table = gen::padded(table, rng.between(MAX_BYTES - 2, MAX_BYTES + 1));
    }
    if rng.chance(1, 3) {
        let at = rng.below(table.len());
        table[at] = rng.byte();
    }
    table
}

fn check_longest(seed: u64) -> Vec<Case> {
    vec![check(longest_table(&mut rng_of(seed, 1)))]
}

/// A number and place by chance, rather near those that a fault can have.
fn shown_anything(seed: u64) -> Vec<Case> {
    let mut rng = rng_of(seed, 2);
    let table = match rng.below(4) {
        0 => Vec::new(),
        1 => gen::random(seed),
        2 => gen::mutated(seed),
        _ => gen::good(seed),
    };
    let mut list = match rng.below(3) {
        0 => Vec::new(),
        1 => vec![kind::PLAIN; MAX_DIRECTIVES + rng.below(2)],
        _ => (0..rng.below(40)).map(|_| rng.pick(&[0x60, 0x61, 0x62, 0x63, 0, 1])).collect(),
    };
    list.truncate(if rng.chance(1, 8) { rng.below(4) } else { list.len() });
    (0..8)
        .map(|_| {
            let number = if rng.chance(1, 2) { rng.between(1, 16) as u8 } else { rng.byte() };
            let length = if number == 16 { list.len() } else { table.len() };
            let place = match rng.below(8) {
                0 => length,
                1 => length + rng.below(20),
                2 => usize::MAX - rng.below(20),
                _ => rng.below(length + 1),
            };
            Case::Shown { table: table.clone(), list: list.clone(), number, place }
        })
        .collect()
}

// Runs.

/// A run of a table that reads, in this style, with room for all observations and a few bytes more.
fn run_of(table: Vec<u8>, style: Style, rng: &mut Rng) -> RunCase {
    let (registers, memory, directives) = {
        let read = table::read(&table).expect("the table reads");
        let (registers, memory) = gen::state(&read, rng);
        let list = gen::directives(&read, &registers, &memory, style, rng);
        (registers, memory, list)
    };
    let observations = room(6 * directives.len() + rng.below(9), rng);
    RunCase { table, registers, memory, directives, observations }
}

/// So many bytes for observations, with a content by chance.
fn room(length: usize, rng: &mut Rng) -> Vec<u8> {
    (0..length).map(|_| rng.byte()).collect()
}

fn run_right(seed: u64) -> Vec<Case> {
    vec![Case::Run(run_of(gen::good(seed), Style::RIGHT, &mut rng_of(seed, 3)))]
}

fn run_speculating(seed: u64) -> Vec<Case> {
    let mut rng = rng_of(seed, 4);
    let style = Style { wrong: 16, noise: 0, steps: rng.pick(&[40, 400, 4_000]) };
    vec![Case::Run(run_of(gen::good(seed), style, &mut rng))]
}

fn run_speculating_at_times(seed: u64) -> Vec<Case> {
    let mut rng = rng_of(seed, 5);
    let style = Style { wrong: rng.pick(&[1, 2, 4, 8]), noise: 0, steps: 4_000 };
    vec![Case::Run(run_of(gen::good(seed), style, &mut rng))]
}

fn run_noisy(seed: u64) -> Vec<Case> {
    let mut rng = rng_of(seed, 6);
    let style = Style { noise: rng.pick(&[2, 16, 64]), ..Style::speculating(&mut rng) };
    vec![Case::Run(run_of(gen::good(seed), style, &mut rng))]
}

fn run_damaged_lists(seed: u64) -> Vec<Case> {
    let mut rng = rng_of(seed, 7);
    let mut run = run_of(gen::good(seed), Style::any(&mut rng), &mut rng);
    run.directives = gen::damaged_directives(&run.directives, &mut rng).0;
    vec![Case::Run(run)]
}

/// Lists of 16,384 bytes and of one more: of a loop that uses them up, and of any table.
fn run_longest_lists(seed: u64) -> Vec<Case> {
    let mut rng = rng_of(seed, 8);
    let mut run = match rng.below(2) {
        0 => tables::long_loop(),
        _ => run_of(gen::good(seed), Style::any(&mut rng), &mut rng),
    };
    run.directives.resize(MAX_DIRECTIVES, kind::PLAIN);
    run.observations = room(6 * MAX_DIRECTIVES, &mut rng);
    let mut longer = run.clone();
    longer.directives.push(rng.pick(&[kind::PLAIN, 0]));
    vec![Case::Run(run), Case::Run(longer)]
}

fn run_wrong_lengths(seed: u64) -> Vec<Case> {
    let mut rng = rng_of(seed, 9);
    let mut run = run_of(gen::good(seed), Style::any(&mut rng), &mut rng);
    let change = |words: &mut Vec<u32>, rng: &mut Rng| match rng.below(4) {
        0 => words.clear(),
        1 => words.truncate(words.len().saturating_sub(1)),
        2 => words.push(rng.word()),
        _ => words.extend((0..rng.below(2_000)).map(|_| 7)),
    };
    match rng.below(3) {
        0 => change(&mut run.registers, &mut rng),
        1 => change(&mut run.memory, &mut rng),
        _ => {
            change(&mut run.registers, &mut rng);
            change(&mut run.memory, &mut rng);
        }
    }
    if rng.chance(1, 4) {
        run.directives = gen::damaged_directives(&run.directives, &mut rng).0;
    }
    vec![Case::Run(run)]
}

/// The same run with exactly the room it needs, one byte less, none, and any less.
fn run_little_room(seed: u64) -> Vec<Case> {
    let mut rng = rng_of(seed, 10);
    let run = run_of(gen::good(seed), Style::any(&mut rng), &mut rng);
    let needed = bytes_observed(&run);
    [needed, needed.saturating_sub(1), 0, rng.below(needed + 1)]
        .iter()
        .map(|&length| Case::Run(RunCase { observations: room(length, &mut rng), ..run.clone() }))
        .collect()
}

/// How many bytes a run with room enough observes.
fn bytes_observed(run: &RunCase) -> usize {
    let mut after = run.clone();
    let outcome = second::run(
        &run.table,
        &mut after.registers,
        &mut after.memory,
        &run.directives,
        &mut after.observations,
    );
    let steps = match outcome {
        Outcome::Stopped { steps, .. } => steps,
        Outcome::Refused { .. } => 0,
    };
    (0..steps).fold(0, |at, _| {
        at + match after.observations[at] {
            kind::SAW_ADDRESS => 6,
            kind::SAW_BRANCH => 2,
            _ => 1,
        }
    })
}

fn untyped_table(seed: u64, rng: &mut Rng) -> Vec<u8> {
    match rng.below(3) {
        0 => gen::spoiled(rng.between(10, 14) as u8, seed).0,
        1 => gen::by_rules(rng.pick(&Rules::WRONG), seed),
        _ => gen::altered(seed),
    }
}

fn run_untyped(seed: u64) -> Vec<Case> {
    let mut rng = rng_of(seed, 11);
    let table = untyped_table(seed, &mut rng);
    let style = Style::any(&mut rng);
    vec![Case::Run(run_of(table, style, &mut rng))]
}

fn run_unread(seed: u64) -> Vec<Case> {
    let mut rng = rng_of(seed, 12);
    (1..=9)
        .map(|number| {
            let whole = run_of(gen::good(seed), Style::any(&mut rng), &mut rng);
            let table = match rng.below(4) {
                0 => gen::mutated(seed ^ u64::from(number) << 32),
                _ => gen::damaged(number, seed).0,
            };
            Case::Run(RunCase { table, ..whole })
        })
        .collect()
}

fn run_longest_tables(seed: u64) -> Vec<Case> {
    let mut rng = rng_of(seed, 13);
    let table = longest_table(&mut rng);
    let run = match table::read(&table) {
        Ok(_) => run_of(table, Style::any(&mut rng), &mut rng),
        Err(_) => RunCase { table, ..tables::long_loop() },
    };
    vec![Case::Run(run)]
}

// Pairs.

fn pair_of(table: Vec<u8>, rng: &mut Rng) -> Case {
    let style = match rng.below(5) {
        0 => Style::RIGHT,
        _ => Style::speculating(rng),
    };
    let first = run_of(table, style, rng);
    let read = table::read(&first.table).expect("the table reads");
    let (registers, memory) = gen::other_secrets(&read, &first.registers, &first.memory, rng);
    Case::Pair { registers, memory, first }
}

fn pair_good(seed: u64) -> Vec<Case> {
    let mut rng = rng_of(seed, 14);
    let table = gen::good(seed);
    (0..2).map(|_| pair_of(table.clone(), &mut rng)).collect()
}

fn pair_bad(seed: u64) -> Vec<Case> {
    let mut rng = rng_of(seed, 15);
    let table = untyped_table(seed, &mut rng);
    (0..2).map(|_| pair_of(table.clone(), &mut rng)).collect()
}
