//! Generated tables and runs: known faults come out as due, the plain checker
//! and the plain machine agree, and runs with different secrets observe alike.

mod common;

use common::{asm, naive, plain_run};
use second::gen::{self, Rng, Rules};
use second::pairs::{pair, Pair};
use second::table::Instr;
use second::typing::{Env, PUBLIC};
use second::{check, message, run, Outcome, Verdict};

fn agrees(table: &[u8], seed: u64) -> Verdict {
    let verdict = check(table);
    let plain = match naive::check(table) {
        Ok(functions) => Verdict::Accepted { functions, bytes: table.len() },
        Err((number, place)) => Verdict::Refused { number, place },
    };
    assert_eq!(verdict, plain, "seed {}", seed);
    let by_rules = match gen::check_by(Rules::Right, table) {
        Ok(functions) => Verdict::Accepted { functions, bytes: table.len() },
        Err(fault) => Verdict::Refused { number: fault.number, place: fault.place },
    };
    assert_eq!(verdict, by_rules, "seed {}", seed);
    message::of_verdict(&verdict, table).of(table, &[]);
    verdict
}

/// Good tables pass, and many did not before 02's order 3, in each of the ways
/// that there are: an index or guard, a loop's start, its end, a CALL, a RETURN.
#[test]
fn good_tables_pass() {
    let mut refused = [0; 5];
    for seed in 0..3_000 {
        let table = gen::good(seed);
        let verdict = agrees(&table, seed);
        assert!(matches!(verdict, Verdict::Accepted { .. }), "{:?} {}", verdict, seed);
        if let Err(fault) = gen::check_by(Rules::InitKeepsArrays, &table) {
            let way = match (fault.number, Instr::decode(&table[fault.place..])) {
                (10, _) => 0,
                (12, Some((Instr::While { .. }, _))) => 1,
                (12, _) => 2,
                (13, _) => 3,
                (14, _) => 4,
                _ => panic!("{:?} {}", fault, seed),
            };
            refused[way] += 1;
        }
    }
    assert!(refused.iter().all(|&count| count > 5), "{:?}", refused);
    assert!(refused.iter().sum::<u32>() > 1_000, "{:?}", refused);
}

#[test]
fn spoiled_tables_fail_as_due() {
    for number in 10..=14 {
        for seed in 0..500 {
            let (table, place) = gen::spoiled(number, seed);
            let verdict = agrees(&table, seed);
            assert_eq!(verdict, Verdict::Refused { number, place }, "seed {}", seed);
        }
    }
}

#[test]
fn damaged_tables_fail_as_due() {
    for number in 1..=9 {
        for seed in 0..500 {
            let (table, place) = gen::damaged(number, seed);
            let verdict = agrees(&table, seed);
            assert_eq!(verdict, Verdict::Refused { number, place }, "seed {}", seed);
        }
    }
}

/// How often good tables have LOAD FIXED of each level, and STORE FIXED of each
/// source into each array, before a function's first block or CALL (where the
/// environment is easily followed); how often what the last LOAD FIXED of a public
/// array gave is made an index (by an AND) or a guard before it is written over.
#[test]
fn good_tables_have_fixed_accesses() {
    let mut loads = [0; 3];
    let mut stores = [[0; 3]; 3];
    let mut used = 0;
    for seed in 0..3_000 {
        let bytes = gen::good(seed);
        let table = second::table::read(&bytes).expect("reads");
        for function in 0..table.functions() {
            let mut env = Env::from_packed(table.input(function));
            let mut fixed = None;
            let mut place = table.start(function);
            loop {
                let (instr, length) = table.instr(place);
                place += length;
                match instr {
                    Instr::LoadFixed { dest, array, .. } => {
                        let level = env.array(array);
                        loads[usize::from(level)] += 1;
                        fixed = if level == PUBLIC { Some(dest) } else { None };
                    }
                    Instr::StoreFixed { array, source, .. } => {
                        let held = usize::from(env.array(array));
                        stores[usize::from(env.register(source))][held] += 1;
                    }
                    // An index after an AND with it, or a guard.
                    Instr::Op { dest, op, left, right } => {
                        let takes = fixed == Some(left) || fixed == Some(right);
                        used += u32::from(op == 4 && takes);
                        fixed = fixed.filter(|&of| of != dest);
                    }
                    Instr::Const { dest, .. }
                    | Instr::Select { dest, .. }
                    | Instr::Load { dest, .. } => fixed = fixed.filter(|&of| of != dest),
                    Instr::If { register, .. } => used += u32::from(fixed == Some(register)),
                    _ => {}
                }
                if !matches!(
                    instr,
                    Instr::Const { .. }
                        | Instr::Op { .. }
                        | Instr::Select { .. }
                        | Instr::Load { .. }
                        | Instr::Store { .. }
                        | Instr::LoadFixed { .. }
                        | Instr::StoreFixed { .. }
                ) {
                    break;
                }
                env.simple(&instr, table.arrays()).expect("types");
            }
        }
    }
    assert!(loads.iter().all(|&count| count > 200), "{:?}", loads);
    assert!(stores.iter().flatten().all(|&count| count > 10), "{:?}", stores);
    assert!(used > 200, "{}", used);
}

/// The ways in which damage gives a fixed access a fault 4.
#[test]
fn damaged_fixed_accesses() {
    let mut counts = [[0; 5]; 2];
    for seed in 0..6_000 {
        let (bytes, place) = gen::damaged(4, seed);
        let (store, register, array, index) = match Instr::decode(&bytes[place..]) {
            Some((Instr::LoadFixed { dest, array, index }, _)) => (0, dest, array, index),
            Some((Instr::StoreFixed { array, index, source }, _)) => (1, source, array, index),
            _ => continue,
        };
        assert_eq!(agrees(&bytes, seed), Verdict::Refused { number: 4, place });
        let way = if register >= bytes[1] {
            0
        } else if array >= bytes[2] {
            1
        } else {
            let at = 5 + 3 * usize::from(array);
            let words = u16::from_le_bytes([bytes[at], bytes[at + 1]]);
            assert!(index >= words);
            match index {
                u16::MAX => 2,
                _ if index == words => 3,
                _ => 4,
            }
        };
        counts[store][way] += 1;
    }
    assert!(counts.iter().flatten().all(|&count| count > 5), "{:?}", counts);
}

#[test]
fn mutated_and_altered_tables() {
    let mut refused = [0; 15];
    for seed in 0..4_000 {
        let altered = gen::altered(seed);
        assert!(second::table::read(&altered).is_ok(), "seed {}", seed);
        for table in &[gen::mutated(seed), altered] {
            match agrees(table, seed) {
                Verdict::Accepted { .. } => refused[0] += 1,
                Verdict::Refused { number, .. } => refused[usize::from(number)] += 1,
            }
        }
    }
    // All but 1 come by chance too.
    for number in &[0, 2, 3, 4, 5, 7, 8, 9, 10, 11, 12, 13, 14] {
        assert!(refused[*number] > 0, "none of {}: {:?}", number, refused);
    }
}

#[test]
fn random_tables() {
    for seed in 0..20_000 {
        agrees(&gen::random(seed), seed);
    }
}

#[test]
fn mixed_checks() {
    for seed in 0..3_000 {
        let (table, expected) = gen::check_case(seed);
        let verdict = agrees(&table, seed);
        match (expected, verdict) {
            (Some(None), Verdict::Accepted { .. }) | (None, _) => {}
            (Some(Some((n, p))), Verdict::Refused { number, place }) => {
                assert_eq!((n, p), (number, place), "seed {}", seed);
            }
            _ => panic!("seed {}: {:?} is not {:?}", seed, verdict, expected),
        }
    }
}

/// How many observations the bytes hold.
fn observations(mut bytes: &[u8]) -> usize {
    let mut count = 0;
    while let Some(&kind) = bytes.first() {
        let length = match kind {
            0x70 => 1,
            0x71 => 2,
            0x72 => 6,
            _ => panic!("{:x} is no observation", kind),
        };
        bytes = &bytes[length..];
        count += 1;
    }
    count
}

#[test]
fn mixed_runs() {
    let mut faults = [0; 17];
    let mut stops = [0; 27];
    // Stops at fixed accesses, on the right path and misspeculating.
    let mut at_fixed = [[0; 27]; 2];
    for seed in 0..6_000 {
        let case = gen::run_case(seed);
        let mut registers = case.registers.clone();
        let mut memory = case.memory.clone();
        let mut seen = case.observations.clone();
        let list = &case.directives;
        let outcome = run(&case.table, &mut registers, &mut memory, list, &mut seen);
        message::of_outcome(&outcome, &case.table, list).of(&case.table, list);

        let mut plain_registers = case.registers.clone();
        let mut plain_memory = case.memory.clone();
        let mut plain_seen = case.observations.clone();
        let plain = plain_run::run(
            &case.table,
            &mut plain_registers,
            &mut plain_memory,
            list,
            &mut plain_seen,
        );
        assert_eq!(outcome, plain, "seed {}", seed);
        assert_eq!(registers, plain_registers, "seed {}", seed);
        assert_eq!(memory, plain_memory, "seed {}", seed);
        assert_eq!(seen, plain_seen, "seed {}", seed);

        match outcome {
            Outcome::Refused { number, .. } => {
                faults[usize::from(number)] += 1;
                assert_eq!(registers, case.registers);
                assert_eq!(memory, case.memory);
                assert_eq!(seen, case.observations);
            }
            Outcome::Stopped { number, place, steps, misspeculating, .. } => {
                stops[usize::from(number)] += 1;
                if matches!(case.table[place], 0x1b | 0x1c) {
                    at_fixed[usize::from(misspeculating)][usize::from(number)] += 1;
                }
                // The same run with just the room it used, and no more
                // directives than it used: all the same, but for 20 in place of
                // the stops that look at a directive.
                let used = used_bytes(list, steps);
                let mut again_registers = case.registers.clone();
                let mut again_memory = case.memory.clone();
                let mut again_seen = case.observations.clone();
                let again = run(
                    &case.table,
                    &mut again_registers,
                    &mut again_memory,
                    &list[..used],
                    &mut again_seen,
                );
                let number = if number == 21 { 21 } else { 20 };
                match again {
                    Outcome::Stopped { number: n, steps: s, .. } => {
                        assert_eq!((n, s), (number, steps), "seed {}", seed);
                    }
                    _ => panic!("seed {}", seed),
                }
                assert_eq!((again_registers, again_memory), (registers, memory));
                assert_eq!(again_seen, seen);
                let fill = case.observations.first().copied().unwrap_or(0);
                if !(0x70..=0x72).contains(&fill) {
                    let end = seen.iter().rposition(|&byte| byte != fill).map_or(0, |at| at + 1);
                    // The last observation may end in bytes equal to the fill.
                    let end = (end..=seen.len()).find(|&end| whole(&seen[..end]));
                    assert_eq!(observations(&seen[..end.expect("whole")]), steps);
                }
            }
        }
    }
    for number in (1..=9).chain(15..=16) {
        assert!(faults[number] > 0, "no fault {}: {:?}", number, faults);
    }
    for number in 20..=26 {
        assert!(stops[number] > 0, "no stop {}: {:?}", number, stops);
    }
    for stops in &at_fixed {
        // 20, 22 and 26 only.
        for (number, &count) in stops.iter().enumerate() {
            assert_eq!(count > 0, matches!(number, 20 | 22 | 26), "{:?}", at_fixed);
        }
    }
}

fn whole(mut bytes: &[u8]) -> bool {
    while let Some(&kind) = bytes.first() {
        let length = match kind {
            0x70 => 1,
            0x71 => 2,
            _ => 6,
        };
        if bytes.len() < length {
            return false;
        }
        bytes = &bytes[length..];
    }
    true
}

fn used_bytes(list: &[u8], steps: usize) -> usize {
    let mut used = 0;
    for _ in 0..steps {
        let directive = second::machine::Directive::decode(&list[used..]);
        used += directive.expect("the list reads").1;
    }
    used
}

#[test]
fn damaged_lists_fail_as_due() {
    let mut rng = Rng::new(16);
    for seed in 0..1_000 {
        let table = gen::good(seed % 50);
        let read = second::table::read(&table).expect("reads");
        let (mut registers, mut memory) = gen::state(&read, &mut rng);
        let style = gen::Style::any(&mut rng);
        let list = gen::directives(&read, &registers, &memory, style, &mut rng);
        let (list, place) = gen::damaged_directives(&list, &mut rng);
        let outcome = run(&table, &mut registers, &mut memory, &list, &mut []);
        assert_eq!(outcome, Outcome::Refused { number: 16, place }, "seed {}", seed);
    }
}

#[test]
fn right_paths_end() {
    // Lists that follow the right path never misspeculate, and most reach the
    // entry's RETURN.
    let mut rng = Rng::new(21);
    let mut ended = 0;
    for seed in 0..1_000 {
        let table = gen::good(seed);
        let read = second::table::read(&table).expect("reads");
        let (mut registers, mut memory) = gen::state(&read, &mut rng);
        let style = gen::Style::RIGHT;
        let list = gen::directives(&read, &registers, &memory, style, &mut rng);
        let mut seen = vec![0; 6 * list.len()];
        match run(&table, &mut registers, &mut memory, &list, &mut seen) {
            Outcome::Stopped { number, misspeculating, .. } => {
                assert!(!misspeculating && matches!(number, 20..=22 | 24), "seed {}", seed);
                ended += u32::from(number == 21);
            }
            Outcome::Refused { .. } => panic!("seed {}", seed),
        }
    }
    assert!(ended > 600, "{}", ended);
}

#[test]
fn two_runs_of_passing_tables_observe_alike() {
    let mut differing = 0;
    let mut misspeculating_pairs = 0;
    for seed in 100_000..105_000 {
        let table = gen::good(seed);
        let mut rng = Rng::new(seed);
        for _ in 0..3 {
            let pair = pair(&table, &mut rng);
            assert!(pair.alike && pair.kept, "seed {}", seed);
            differing += u32::from(pair.differing);
            if let Outcome::Stopped { misspeculating: true, .. } = pair.outcome {
                misspeculating_pairs += 1;
            }
        }
    }
    assert!(differing > 10_000, "{}", differing);
    assert!(misspeculating_pairs > 5_000, "{}", misspeculating_pairs);
}

#[test]
fn altered_tables_that_still_pass_observe_alike() {
    let mut tried = 0;
    for seed in 0..4_000 {
        let table = gen::altered(seed);
        if let Verdict::Accepted { .. } = check(&table) {
            let mut rng = Rng::new(seed);
            for _ in 0..3 {
                let pair = pair(&table, &mut rng);
                assert!(pair.alike && pair.kept, "seed {}", seed);
            }
            tried += 1;
        }
    }
    assert!(tried > 1_000, "{}", tried);
}

/// Whether some of many pairs of runs are not alike, or leave secrets behind.
fn leaks(table: &[u8], tries: usize, seed: u64) -> bool {
    let mut rng = Rng::new(seed);
    let leaking = |pair: Pair| !(pair.alike && pair.kept);
    (0..tries).any(|_| leaking(pair(table, &mut rng)))
}

/// Whether some of many pairs of runs observe different things.
fn observes(table: &[u8], tries: usize, seed: u64) -> bool {
    let mut rng = Rng::new(seed);
    (0..tries).any(|_| !pair(table, &mut rng).alike)
}

/// The comparison of runs can find what it looks for: tables by these wrong rules
/// leak, and none of those that leak passes.
#[test]
fn wrong_rules_leak() {
    for &(rules, tables) in &[
        (Rules::LoadPublic, 2_000),
        (Rules::CallKeeps, 200),
        (Rules::LoopOnce, 1_500),
        (Rules::BranchUpdated, 2_000),
        (Rules::ProtectAll, 400),
        (Rules::InitAll, 100),
        (Rules::InitAllArrays, 100),
        (Rules::StoreNamed, 1_000),
        (Rules::FixedPublic, 100),
        (Rules::FixedOutdated, 1_000),
        (Rules::FixedRaisesNone, 400),
        (Rules::FixedLowers, 400),
    ] {
        let mut leaking = 0;
        let mut observed = 0;
        for seed in 0..tables {
            let table = gen::by_rules(rules, seed);
            if leaks(&table, 3, seed) {
                leaking += 1;
                assert!(matches!(check(&table), Verdict::Refused { .. }), "seed {}", seed);
            }
            observed += u32::from(observes(&table, 3, seed));
        }
        assert!(leaking > 0 && observed > 0, "{:?}: {}, {}", rules, leaking, observed);
    }
}

/// Tables by wrong rules pass by those rules, and not all of them by the right
/// ones.
#[test]
fn tables_by_wrong_rules_pass_by_them() {
    for &rules in &Rules::WRONG {
        let mut refused = 0;
        for seed in 0..300 {
            let table = gen::by_rules(rules, seed);
            assert!(gen::check_by(rules, &table).is_ok(), "{:?} seed {}", rules, seed);
            refused += u32::from(matches!(agrees(&table, seed), Verdict::Refused { .. }));
        }
        assert!(refused > 10, "{:?}: {}", rules, refused);
    }
}

/// "A STORE that raises only the array it names": astray, a secret gets into the
/// array that is still called public.
#[test]
fn a_store_that_raises_only_its_array_leaks() {
    let table = |out: &str| {
        asm(&format!(
            "sizes 3 2 1\narray 1\narray 1\nsignature unknown PPS/SP unknown PPS/{}\n\
             if r0\nstore a0[r1] r2\nelse\nendif\nreturn",
            out
        ))
    };
    assert_eq!(check(&table("SP")), Verdict::Refused { number: 14, place: 39 });
    assert!(leaks(&table("SP"), 200, 1));
    assert_eq!(check(&table("ST")), Verdict::Accepted { functions: 1, bytes: 40 });
    assert!(!leaks(&table("ST"), 200, 1));
}

/// CALL without the mark does not leave the flag updated: a wrong return would
/// not be masked.
#[test]
fn an_unmarked_call_is_not_updated() {
    let table = |mark: &str| {
        asm(&format!(
            "sizes 3 2 2
             array 1
             array 1
             signature updated PSS/PS updated PSS/PS
             signature unknown PSS/PS unknown SSS/SS
             return
             init
             const r0 7
             call f0
             init
             const r0 0
             call f0 {}
             load r1 a0[r0]
             protect r1 r1
             load r1 a0[r1]
             return",
            mark
        ))
    };
    let unmarked = table("");
    assert_eq!(check(&unmarked), Verdict::Refused { number: 11, place: 69 });
    assert!(leaks(&unmarked, 400, 1));
    let marked = table("marked");
    assert!(matches!(check(&marked), Verdict::Accepted { .. }));
    assert!(!leaks(&marked, 400, 1));
}
