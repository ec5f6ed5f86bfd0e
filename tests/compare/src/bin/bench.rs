//! `bench`: check and run of the proved archive against the second implementation, in one process, as ratios; how
//! time grows with the table; and how deep the stack goes. `--short` takes fewer rounds; `--ratios` leaves the times
//! out, which say nothing under an emulator.

use compare::sides::{Rattle, Second, Side};
use compare::{stack, tables};
use second::gen::{self, Rng, Rules, RunCase, Style};
use second::{table, Outcome, Verdict};
use std::time::{Duration, Instant};

const KB: usize = 1_024;
const SIZES: [usize; 6] = [KB, 2 * KB, 4 * KB, 8 * KB, 16 * KB, 32 * KB];
const TABLES_OF_A_SIZE: usize = 12;
/// Each side's share of a round takes at least so long: enough for the clock, and short enough that other programs on
/// the host leave some rounds alone.
const LEAST: Duration = Duration::from_millis(1);

struct Plan {
    rounds: u32,
    /// Times are printed too.
    absolute: bool,
}

/// Seconds that one pass over the inputs takes on each side.
struct Times {
    rattle: f64,
    second: f64,
}

impl Times {
    fn ratio(&self) -> f64 {
        self.rattle / self.second
    }
}

fn seconds(work: &mut dyn FnMut(), times: u32) -> f64 {
    let start = Instant::now();
    for _ in 0..times {
        work();
    }
    start.elapsed().as_secs_f64() / f64::from(times)
}

/// The best of several rounds, the two sides in turn.
fn race(plan: &Plan, rattle: &mut dyn FnMut(), second: &mut dyn FnMut()) -> Times {
    let enough = |once: f64| (LEAST.as_secs_f64() / once.max(1e-9)).ceil() as u32;
    let (ours, theirs) = (enough(seconds(rattle, 1)), enough(seconds(second, 1)));
    let mut best = Times { rattle: f64::MAX, second: f64::MAX };
    for _ in 0..plan.rounds {
        best.rattle = best.rattle.min(seconds(rattle, ours));
        best.second = best.second.min(seconds(second, theirs));
    }
    best
}

/// Checks all tables; the count of functions is used, so that no work can be left out.
fn check_all(side: &dyn Side, tables: &[Vec<u8>], functions: &mut usize) {
    for table in tables {
        if let Verdict::Accepted { functions: of, .. } = side.check(table) {
            *functions += of;
        }
    }
}

/// Times the check of tables, all of which pass.
fn race_checks(plan: &Plan, name: &str, tables: &[Vec<u8>]) -> (usize, Times) {
    for table in tables {
        let verdict = Rattle.check(table);
        assert_eq!(verdict, Second.check(table), "{}", name);
        assert!(matches!(verdict, Verdict::Accepted { .. }), "{}: {:?}", name, verdict);
    }
    let bytes = tables.iter().map(Vec::len).sum();
    let (mut ours, mut theirs) = (0, 0);
    let times = race(plan, &mut || check_all(&Rattle, tables, &mut ours), &mut || {
        check_all(&Second, tables, &mut theirs)
    });
    assert!(ours > 0 && theirs > 0);
    (bytes, times)
}

/// Room for one side's runs, and the steps they took.
struct Room {
    steps: usize,
    registers: Vec<u32>,
    memory: Vec<u32>,
    observations: Vec<u8>,
}

impl Room {
    fn new() -> Room {
        Room {
            steps: 0,
            registers: Vec::new(),
            memory: Vec::new(),
            observations: vec![0; 6 * 16_384],
        }
    }

    fn run(&mut self, side: &dyn Side, case: &RunCase) -> Outcome {
        self.registers.clone_from(&case.registers);
        self.memory.clone_from(&case.memory);
        let list = &case.directives;
        let room = &mut self.observations;
        let outcome = side.run(&case.table, &mut self.registers, &mut self.memory, list, room);
        if let Outcome::Stopped { steps, .. } = outcome {
            self.steps += steps;
        }
        outcome
    }

    fn run_all(&mut self, side: &dyn Side, cases: &[RunCase]) {
        for case in cases {
            self.run(side, case);
        }
    }
}

/// Times runs; gives back the steps of all of them too.
fn race_runs(plan: &Plan, name: &str, cases: &[RunCase]) -> (usize, Times) {
    let (mut ours, mut theirs) = (Room::new(), Room::new());
    for case in cases {
        let outcome = ours.run(&Rattle, case);
        assert_eq!(outcome, theirs.run(&Second, case), "{}", name);
        assert_eq!(ours.registers, theirs.registers, "{}", name);
        assert_eq!(ours.memory, theirs.memory, "{}", name);
        assert_eq!(ours.observations, theirs.observations, "{}", name);
        assert!(matches!(outcome, Outcome::Stopped { .. }), "{}: {:?}", name, outcome);
    }
    let steps = ours.steps;
    let times =
        race(plan, &mut || ours.run_all(&Rattle, cases), &mut || theirs.run_all(&Second, cases));
    assert!(ours.steps > steps && theirs.steps > steps);
    (steps, times)
}

fn runs_of(tables: &[Vec<u8>], style: Style, rng: &mut Rng) -> Vec<RunCase> {
    tables
        .iter()
        .map(|bytes| {
            let read = table::read(bytes).expect("the table reads");
            let (registers, memory) = gen::state(&read, rng);
            let directives = gen::directives(&read, &registers, &memory, style, rng);
            RunCase {
                table: bytes.clone(),
                registers,
                memory,
                directives,
                observations: Vec::new(),
            }
        })
        .collect()
}

/// One row: so many bytes or steps on average, the time per unit on each side, the ratio.
fn print_row(plan: &Plan, name: &str, size: usize, times: &Times, per_second: f64) {
    print!("{:<36} {:>6}", name, size);
    if plan.absolute {
        print!(" {:>10.2} {:>10.2}", times.rattle * per_second, times.second * per_second);
    }
    println!(" {:>8.2}", times.ratio());
}

fn print_check(plan: &Plan, name: &str, count: usize, bytes: usize, times: &Times) {
    print_row(plan, name, bytes / count, times, 1e9 / bytes as f64);
}

fn print_run(plan: &Plan, name: &str, count: usize, steps: usize, times: &Times) {
    print_row(plan, name, steps / count, times, 1e6 / count as f64);
}

fn print_head(plan: &Plan, what: &str, size: &str, unit: &str) {
    print!("{:<36} {:>6}", what, size);
    if plan.absolute {
        print!(" {:>10} {:>10}", "Rattle", "second");
    }
    println!(
        " {:>8}{}",
        "ratio",
        if plan.absolute { format!("   ({})", unit) } else { String::new() }
    );
}

/// The exponent of growth: the slope of a straight line through the logarithms, by least squares.
fn exponent(points: &[(f64, f64)]) -> f64 {
    let logs: Vec<(f64, f64)> = points.iter().map(|&(x, y)| (x.ln(), y.ln())).collect();
    let count = logs.len() as f64;
    let mean_x = logs.iter().map(|(x, _)| x).sum::<f64>() / count;
    let mean_y = logs.iter().map(|(_, y)| y).sum::<f64>() / count;
    let across: f64 = logs.iter().map(|(x, y)| (x - mean_x) * (y - mean_y)).sum();
    let along: f64 = logs.iter().map(|(x, _)| (x - mean_x).powi(2)).sum();
    across / along
}

fn checks(plan: &Plan, sized: &[(usize, Vec<Vec<u8>>)]) {
    print_head(plan, "check", "bytes", "ns per byte");
    let (mut ours, mut theirs) = (Vec::new(), Vec::new());
    for (size, tables) in sized {
        let name = format!("generated, {} KB", size / KB);
        let (bytes, times) = race_checks(plan, &name, tables);
        print_check(plan, &name, tables.len(), bytes, &times);
        ours.push((bytes as f64, times.rattle));
        theirs.push((bytes as f64, times.second));
    }
    let padded = gen::padded(gen::by_rules(Rules::InitKeepsArrays, 1), 32 * KB);
    for (name, table) in [
        ("straight code, 32 KB", tables::straight(32 * KB)),
        ("fixed accesses, 32 KB", tables::fixed(32 * KB)),
        ("nested 16 deep, 32 KB", tables::nested(32 * KB)),
        ("32 functions of calls, 32 KB", tables::calling(32 * KB)),
        ("padded with CONST, 32 KB", padded),
    ] {
        let (bytes, times) = race_checks(plan, name, &[table]);
        print_check(plan, name, 1, bytes, &times);
    }
    let per_byte = |points: &[(f64, f64)], at: usize| points[at].1 / points[at].0;
    let (at_4, at_32) = (2, SIZES.len() - 1);
    println!(
        "growth of the check with the table: Rattle bytes^{:.2}, second bytes^{:.2}; \
         ns per byte at 32 KB over 4 KB: Rattle {:.2}, second {:.2}\n",
        exponent(&ours),
        exponent(&theirs),
        per_byte(&ours, at_32) / per_byte(&ours, at_4),
        per_byte(&theirs, at_32) / per_byte(&theirs, at_4)
    );
}

fn runs(plan: &Plan, sized: &[(usize, Vec<Vec<u8>>)], rng: &mut Rng) {
    print_head(plan, "run", "steps", "microseconds per run");
    let at_every_chance = Style { wrong: 16, noise: 0, steps: 4_000 };
    for (size, tables) in sized {
        for &(path, style) in &[("right path", Style::RIGHT), ("speculating", at_every_chance)] {
            let name = format!("{}, {} KB", path, size / KB);
            let cases = runs_of(tables, style, rng);
            let (steps, times) = race_runs(plan, &name, &cases);
            print_run(plan, &name, cases.len(), steps, &times);
        }
    }
    for (name, case) in long_runs() {
        let (steps, times) = race_runs(plan, name, &[case]);
        print_run(plan, name, 1, steps, &times);
    }
    println!();
}

/// Runs that use up the longest list.
fn long_runs() -> Vec<(&'static str, RunCase)> {
    vec![
        ("one long loop", tables::long_loop()),
        ("loads and stores, 8 arrays", tables::many_accesses()),
        ("fixed accesses, 8 arrays", tables::fixed_accesses()),
        ("stray accesses, 8 arrays", tables::stray_accesses()),
        ("wrong returns, 1 KB", tables::wrong_returns(KB)),
        ("wrong returns, 32 KB", tables::wrong_returns(32 * KB)),
    ]
}

fn deepest_check(side: &dyn Side, tables: &[Vec<u8>]) -> usize {
    let depths = tables.iter().map(|table| {
        stack::depth_of(|| {
            side.check(table);
        })
    });
    depths.max().unwrap_or(0)
}

fn deepest_run(side: &dyn Side, cases: &[RunCase]) -> usize {
    let mut room = Room::new();
    let depths = cases.iter().map(|case| {
        stack::depth_of(|| {
            room.run(side, case);
        })
    });
    depths.max().unwrap_or(0)
}

fn stacks(sized: &[(usize, Vec<Vec<u8>>)], rng: &mut Rng) {
    println!("{:<36} {:>6} {:>10}", "deepest stack, bytes", "Rattle", "second");
    let mut tables: Vec<Vec<u8>> = sized.iter().flat_map(|(_, tables)| tables.clone()).collect();
    tables.extend([tables::straight(32 * KB), tables::nested(32 * KB), tables::calling(32 * KB)]);
    tables.extend((1..=14).map(|number| match number {
        1..=9 => gen::damaged(number, 1).0,
        _ => gen::spoiled(number, 1).0,
    }));
    let print = |name: &str, ours: usize, theirs: usize| {
        println!("{:<36} {:>6} {:>10}", name, ours, theirs);
    };
    print("check", deepest_check(&Rattle, &tables), deepest_check(&Second, &tables));
    let readable: Vec<Vec<u8>> =
        tables.into_iter().filter(|bytes| table::read(bytes).is_ok()).collect();
    let mut cases = runs_of(&readable, Style { wrong: 8, noise: 0, steps: 4_000 }, rng);
    cases.extend(long_runs().into_iter().map(|(_, case)| case));
    print("run", deepest_run(&Rattle, &cases), deepest_run(&Second, &cases));
}

fn main() {
    let mut plan = Plan { rounds: 100, absolute: true };
    for word in std::env::args().skip(1) {
        match word.as_str() {
            "--short" => plan.rounds = 20,
            "--ratios" => plan.absolute = false,
            _ => {
                eprintln!("bench [--short] [--ratios]");
                std::process::exit(2);
            }
        }
    }
    let mut rng = Rng::new(7);
    let sized: Vec<(usize, Vec<Vec<u8>>)> = SIZES
        .iter()
        .map(|&size| (size, tables::generated(size, TABLES_OF_A_SIZE, &mut rng)))
        .collect();
    checks(&plan, &sized);
    runs(&plan, &sized, &mut rng);
    stacks(&sized, &mut rng);
}
