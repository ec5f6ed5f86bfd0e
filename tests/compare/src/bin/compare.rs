//! `compare quick`, `compare long [SEED] [--minutes M]`: holds the proved archive against the second implementation,
//! on cases from seeds. `--break ERROR` puts an error in (see `compare::planted`), to see one found. Ends with 1
//! where the two differ, or where something that should come up never did.

use compare::answer::compared;
use compare::case::Case;
use compare::planted::{sides, Error};
use compare::report::report;
use compare::shrink::shrunk;
use compare::sorts::SORTS;
use compare::tally::Tally;
use std::panic::{catch_unwind, AssertUnwindSafe};
use std::process::exit;
use std::sync::atomic::{AtomicU64, Ordering::Relaxed};
use std::thread::{available_parallelism, scope};
use std::time::{Duration, Instant};

/// The rounds of `quick`: a minute on two cores of 2026.
const QUICK_ROUNDS: u64 = 24_000;
const BETWEEN_LINES: Duration = Duration::from_secs(5);
const SAVED: &str = concat!(env!("CARGO_MANIFEST_DIR"), "/../../target/failed-case.txt");

const USAGE: &str = "compare quick | long [SEED] [--minutes M], and: --break ERROR";

struct Plan {
    seed: u64,
    rounds: Option<u64>,
    end: Option<Duration>,
    error: Option<Error>,
}

fn usage(what: &str) -> ! {
    eprintln!("{}\n{}", what, USAGE);
    let errors: Vec<String> = Error::ALL.iter().map(|error| format!("{:?}", error)).collect();
    eprintln!("errors: {}", errors.join(" "));
    exit(2)
}

fn plan_of(arguments: &[String]) -> Plan {
    let mut plan = Plan { seed: 1, rounds: None, end: None, error: None };
    let mut words = arguments.iter();
    match words.next().map(String::as_str) {
        Some("quick") => plan.rounds = Some(QUICK_ROUNDS),
        Some("long") => {}
        _ => usage("quick or long?"),
    }
    while let Some(word) = words.next() {
        match word.as_str() {
            "--minutes" => match words.next().and_then(|word| word.parse::<f64>().ok()) {
                Some(minutes) => plan.end = Some(Duration::from_secs_f64(60.0 * minutes)),
                None => usage("how many minutes?"),
            },
            "--break" => match words.next().and_then(|word| Error::named(word)) {
                Some(error) => plan.error = Some(error),
                None => usage("which error?"),
            },
            seed => match seed.parse() {
                Ok(seed) if plan.rounds.is_none() => plan.seed = seed,
                _ => usage("what is this?"),
            },
        }
    }
    plan
}

fn save(case: &Case) {
    if let Err(error) = std::fs::write(SAVED, case.text() + "\n") {
        eprintln!("cannot write {}: {}", SAVED, error);
    }
}

/// Makes a failing case small, tells it, and ends.
fn fail(found: &str, case: Case, error: Option<Error>) -> ! {
    eprintln!("a difference ({}); making it small", found);
    let (rattle, second) = sides(error);
    let small = shrunk(case, &|case| compared(case, &*rattle, &*second).is_err());
    save(&small);
    let replay = match error {
        None => "tests/run replay".to_string(),
        Some(error) => format!("tests/run replay --break {:?}", error),
    };
    if let Err(difference) = compared(&small, &*rattle, &*second) {
        println!("DIFFERENT ({}):\n\n{}", found, report(&small, &difference, &replay, SAVED));
    }
    exit(1)
}

/// All cases of one seed.
fn compare_round(seed: u64, error: Option<Error>, tally: &mut Tally) {
    let (rattle, second) = sides(error);
    for sort in SORTS {
        for case in (sort.make)(seed) {
            let found = || format!("{}, seed {}", sort.name, seed);
            match catch_unwind(AssertUnwindSafe(|| compared(&case, &*rattle, &*second))) {
                Ok(Ok(answer)) => tally.count(sort.name, &case, &answer),
                Ok(Err(_)) => fail(&found(), case, error),
                Err(_) => {
                    save(&case);
                    println!("PANICKED ({}):\n\n    tests/run replay < {}", found(), SAVED);
                    exit(1)
                }
            }
        }
    }
}

/// What the workers share: the next seed, and how many cases were alike so far.
struct Shared {
    next: AtomicU64,
    cases: AtomicU64,
    start: Instant,
}

/// One worker's part: a seed at a time, until there are no more or the time is over. The teller says now and then how
/// far all are.
fn work(plan: &Plan, shared: &Shared, teller: bool) -> Tally {
    let mut tally = Tally::default();
    let mut told = shared.start;
    while plan.end.map_or(true, |end| shared.start.elapsed() < end) {
        let seed = shared.next.fetch_add(1, Relaxed);
        if plan.rounds.map_or(false, |rounds| seed >= plan.seed + rounds) {
            break;
        }
        let before = tally.cases;
        compare_round(seed, plan.error, &mut tally);
        let cases = shared.cases.fetch_add(tally.cases - before, Relaxed);
        if teller && told.elapsed() > BETWEEN_LINES {
            told = Instant::now();
            let seconds = shared.start.elapsed().as_secs();
            eprintln!("{} cases alike, seed {}, {} s", cases, seed, seconds);
        }
    }
    tally
}

/// A worker for each processor. Which of them takes a seed changes nothing in what is counted.
fn compare_all(plan: &Plan, shared: &Shared) -> Tally {
    let workers = available_parallelism().map_or(1, |number| number.get());
    scope(|threads| {
        let others: Vec<_> =
            (1..workers).map(|_| threads.spawn(|| work(plan, shared, false))).collect();
        let mut tally = work(plan, shared, true);
        for other in others {
            tally.add(&other.join().expect("a panic is met in its case"));
        }
        tally
    })
}

fn main() {
    let arguments: Vec<String> = std::env::args().skip(1).collect();
    let plan = plan_of(&arguments);
    let shared =
        Shared { next: AtomicU64::new(plan.seed), cases: AtomicU64::new(0), start: Instant::now() };
    let tally = compare_all(&plan, &shared);
    print!("{}", tally);
    let missing = tally.missing();
    if !missing.is_empty() {
        println!("NEVER CAME UP: {}", missing.join(", "));
        exit(1);
    }
    // Past the last round each worker took one seed more, and left it.
    let taken = shared.next.load(Relaxed);
    let end = plan.rounds.map_or(taken, |rounds| plan.seed + rounds);
    let seconds = shared.start.elapsed().as_secs();
    println!("{} cases alike, seeds {} to {}, {} s", tally.cases, plan.seed, end - 1, seconds);
}
