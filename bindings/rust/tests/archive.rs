//! The archive, called by this crate's functions.

use likunjavo::{check, run, shown, Fault, Outcome, Part, Slice, Stop, Verdict};

/// Document 01's table A.
const TABLE_A: &[u8] = include_bytes!("../../../tests/examples/fault-10.table");
/// Its table B.
const TABLE_B: &[u8] = include_bytes!("../../../tests/examples/passes.table");

#[test]
fn table_b_passes() {
    let verdict = check(TABLE_B);
    assert_eq!(verdict, Verdict::Accepted { functions: 1, bytes: 37 });
    assert!(verdict.passes());
    assert_eq!(verdict.to_string(), "accepted 1 functions 37 bytes");
}

#[test]
fn table_a_is_refused() {
    let verdict = check(TABLE_A);
    assert_eq!(verdict, Verdict::Refused { fault: Fault::NotPublic, place: 28 });
    assert!(!verdict.passes());
    assert_eq!(verdict.to_string(), "refused 10 at 28");
    let part = shown(TABLE_A, &[], 10, 28);
    assert_eq!(part, Part { slice: Slice::Table, offset: 28, length: 4 });
    assert_eq!(part.of(TABLE_A, &[]), [0x13, 1, 0, 0]);
}

/// Document 01's marked case 4.
#[test]
fn table_b_runs() {
    let (mut registers, mut memory) = ([0, 1], [3, 2, 9, 7]);
    let mut observations = [0xee; 15];
    let outcome = run(TABLE_B, &mut registers, &mut memory, &[0x60; 4], &mut observations);
    let stopped = Outcome::Stopped {
        stop: Stop::Returned,
        place: 36,
        steps: 4,
        misspeculating: false,
        masked: false,
    };
    assert_eq!(outcome, stopped);
    assert_eq!(outcome.to_string(), "stopped 21 at 36 after 4 steps");
    assert_eq!(registers, [2, 9]);
    assert_eq!(memory, [3, 2, 9, 7]);
    let observed = [0x70, 0x72, 0, 1, 0, 0, 0, 0x70, 0x72, 0, 2, 0, 0, 0, 0xee];
    assert_eq!(observations, observed);
}

#[test]
fn a_bad_list_is_shown_in_the_list() {
    let (mut registers, mut memory) = ([0, 1], [3, 2, 9, 7]);
    let list = [0x60, 0x61, 2];
    let outcome = run(TABLE_B, &mut registers, &mut memory, &list, &mut []);
    assert_eq!(outcome, Outcome::Refused { fault: Fault::BadList, place: 1 });
    assert_eq!(outcome.to_string(), "refused 16 at 1");
    let part = shown(TABLE_B, &list, 16, 1);
    assert_eq!(part, Part { slice: Slice::List, offset: 1, length: 2 });
    assert_eq!(part.of(TABLE_B, &list), [0x61, 2]);
}

/// Empty slices have pointers to nothing.
#[test]
fn empty_slices() {
    assert_eq!(check(&[]), Verdict::Refused { fault: Fault::TableCut, place: 0 });
    for number in 0..=u8::MAX {
        for &place in &[0, 1, usize::MAX] {
            let part = shown(&[], &[], number, place);
            assert_eq!((part.offset, part.length), (0, 0), "{} at {}", number, place);
        }
    }
    let outcome = run(&[], &mut [], &mut [], &[], &mut []);
    assert_eq!(outcome, Outcome::Refused { fault: Fault::TableCut, place: 0 });
    let outcome = run(TABLE_B, &mut [], &mut [], &[], &mut []);
    assert_eq!(outcome, Outcome::Refused { fault: Fault::WrongLength, place: 0 });
    let outcome = run(TABLE_B, &mut [0, 1], &mut [3, 2, 9, 7], &[], &mut []);
    assert!(matches!(outcome, Outcome::Stopped { stop: Stop::ListUsedUp, steps: 0, .. }));
}

/// No number is left out or has two names, and each has its words.
#[test]
fn numbers_and_words() {
    let faults: Vec<u8> = Fault::ALL.iter().map(|fault| fault.number()).collect();
    assert_eq!(faults, (1..=16).collect::<Vec<u8>>());
    let stops: Vec<u8> = Stop::ALL.iter().map(|stop| stop.number()).collect();
    assert_eq!(stops, (20..=26).collect::<Vec<u8>>());
    for number in 0..=u8::MAX {
        let (fault, stop) = (Fault::from_number(number), Stop::from_number(number));
        assert_eq!(fault.map(Fault::number), Some(number).filter(|n| (1..=16).contains(n)));
        assert_eq!(stop.map(Stop::number), Some(number).filter(|n| (20..=26).contains(n)));
    }
    assert_eq!(Fault::TooDeep.to_string(), "Blocks are nested more than 16 deep.");
    assert_eq!(Stop::NoRoom.to_string(), "There is no room left for the observation.");
}
