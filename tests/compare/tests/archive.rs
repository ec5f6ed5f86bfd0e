//! What the archive answers to the examples, the tables of the benchmark, and the measure of the stack.

use compare::answer::compared;
use compare::case::Case;
use compare::sides::{Rattle, Second};
use compare::{stack, tables};
use likunjavo::{Fault, Outcome, Stop, Verdict};

/// Both implementations answer alike to every table of tests/examples.
#[test]
fn the_examples_are_answered_alike() {
    let folder = concat!(env!("CARGO_MANIFEST_DIR"), "/../examples");
    let mut count = 0;
    for file in std::fs::read_dir(folder).expect("tests/examples is there") {
        let path = file.expect("a file").path();
        if path.extension() != Some("table".as_ref()) {
            continue;
        }
        let table = std::fs::read(path).expect("it can be read");
        let case = Case::Check { table };
        assert!(compared(&case, &Rattle, &Second).is_ok(), "{}", case.text());
        count += 1;
    }
    assert!(count >= 20, "{} tables", count);
}

/// Document 02, order 1: the hash by LOAD is refused, by LOAD FIXED it passes.
#[test]
fn hashes_with_round_constants() {
    let by_load = include_bytes!("../../examples/hash-load.table");
    let by_fixed = include_bytes!("../../examples/hash-fixed.table");
    assert_eq!(likunjavo::check(by_load), Verdict::Refused { fault: Fault::NotPublic, place: 49 });
    assert_eq!(likunjavo::check(by_fixed), Verdict::Accepted { functions: 1, bytes: 166 });
    let mut memory =
        [2, 0, 3, 1, 0x428a_2f98, 0x7137_4491, 0xb5c0_fbcf, 0xe9b5_dba5, 1, 2, 3, 4, 0];
    let (mut registers, mut observations) = ([0; 4], [0; 200]);
    let outcome =
        likunjavo::run(by_fixed, &mut registers, &mut memory, &[0x60; 27], &mut observations);
    let stopped = Outcome::Stopped {
        stop: Stop::Returned,
        place: 165,
        steps: 27,
        misspeculating: false,
        masked: false,
    };
    assert_eq!(outcome, stopped);
    let digest =
        [3, 1, 4, 2].iter().zip(&memory[4..8]).fold(0x6a09_e667_u32, |state, (word, by)| {
            (state ^ word).wrapping_mul(*by).wrapping_add(*word)
        });
    assert_eq!(memory[12], digest);
}

/// Document 02, order 3: the gauge passes with its PROTECTs, as before, and without them. Both sum what the channels
/// name, and what they show does not depend on the readings.
#[test]
fn gauges_with_a_settled_array() {
    let by_protect = include_bytes!("../../examples/gauge-protect.table");
    let by_init = include_bytes!("../../examples/gauge-init.table");
    assert_eq!(likunjavo::check(by_protect), Verdict::Accepted { functions: 1, bytes: 77 });
    assert_eq!(likunjavo::check(by_init), Verdict::Accepted { functions: 1, bytes: 71 });
    for (table, steps) in [(&by_protect[..], 11), (&by_init[..], 9)] {
        let summed = |readings: [u32; 4]| {
            let mut memory = [&[3, 1], &readings[..], &[0]].concat();
            let mut observations = [0; 40];
            let list = vec![0x60; steps];
            let outcome =
                likunjavo::run(table, &mut [7, 8, 9], &mut memory, &list, &mut observations);
            let place = table.len() - 1;
            let stopped = Outcome::Stopped {
                stop: Stop::Returned,
                place,
                steps,
                misspeculating: false,
                masked: false,
            };
            assert_eq!(outcome, stopped);
            (memory[6], observations)
        };
        let (first, second) = (summed([10, 20, 30, 40]), summed([1, 2, 3, 4]));
        assert_eq!((first.0, second.0), (60, 6));
        assert_eq!(first.1, second.1);
    }
}

/// What a STORE that raises only the array it names would let out: the proved check refuses the table, and the proved
/// machine shows the secret that such a check would have let through.
#[test]
fn the_leak_is_refused_and_real() {
    let table = include_bytes!("../../examples/store-leak.table");
    assert_eq!(likunjavo::check(table), Verdict::Refused { fault: Fault::NotPublic, place: 43 });
    let shown = |secret: u32| {
        let list = [0x61, 0, 0x62, 1, 0, 0, 0x60, 0x62, 0, 0, 0, 0x60];
        let mut observations = [0; 21];
        let (mut registers, mut memory) = ([1, secret], [0, 0]);
        let _ = likunjavo::run(table, &mut registers, &mut memory, &list, &mut observations);
        observations
    };
    assert_eq!(shown(5)[14..20], [0x72, 0, 5, 0, 0, 0]);
    assert_eq!(shown(6)[14..20], [0x72, 0, 6, 0, 0, 0]);
}

#[test]
fn the_runs_of_the_benchmark_use_their_whole_list() {
    for run in [
        tables::long_loop(),
        tables::many_accesses(),
        tables::stray_accesses(),
        tables::wrong_returns(4_096),
    ] {
        let (mut registers, mut memory) = (run.registers.clone(), run.memory.clone());
        let mut room = run.observations.clone();
        let outcome =
            likunjavo::run(&run.table, &mut registers, &mut memory, &run.directives, &mut room);
        assert!(
            matches!(outcome, Outcome::Stopped { stop: Stop::ListUsedUp, .. }),
            "{:?}",
            outcome
        );
        assert!(run.directives.len() > 16_380);
    }
}

/// The check calls itself for each block inside a block.
#[test]
fn the_stack_is_measured() {
    let check = |table: Vec<u8>| {
        stack::depth_of(|| {
            let _ = likunjavo::check(&table);
        })
    };
    assert_eq!(stack::depth_of(|| {}), 0);
    let (straight, nested) = (check(tables::straight(1_024)), check(tables::nested(1_024)));
    assert!(0 < straight && 2 * straight < nested, "{} and {}", straight, nested);
}

/// Document 02, order 2: stack is short where the check runs. The table that goes deepest stays far below what
/// likunjavo.h says of a call.
#[test]
fn the_stack_stays_short() {
    let table = tables::nested(32 * 1_024);
    let depth = stack::depth_of(|| {
        assert!(matches!(likunjavo::check(&table), Verdict::Accepted { functions: 32, .. }));
    });
    assert!(0 < depth && depth < 12 * 1_024, "{} bytes", depth);
}
