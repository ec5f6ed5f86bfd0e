//! Each stop, the order of their tests, and what each record does.

mod common;

use common::{asm, ran, stopped, table_b, Ran};
use second::run;

/// A table that does nothing but the given code, with 3 registers and arrays of
/// 2 and 3 words; its levels do not matter to a run. The code starts at 27.
fn code(code: &str) -> Vec<u8> {
    asm(&format!("sizes 3 2 1\narray 2\narray 3\nsignature unknown / unknown /\n{}\nreturn", code))
}

const START: usize = 27;
const MEMORY: [u32; 5] = [10, 11, 20, 21, 22];

fn go(text: &str, registers: &[u32], directives: &str) -> Ran {
    ran(&code(text), registers, &MEMORY, directives, 64)
}

#[test]
fn stop_20() {
    let ran = go("const r0 5\nconst r1 6", &[1, 2, 3], "60");
    assert_eq!(ran.outcome, stopped(20, START + 6, 1, false, false));
    assert_eq!(ran.registers, [5, 2, 3]);
    assert_eq!(ran.observations[..2], [0x70, 0xee]);
    let ran = go("const r0 5", &[1, 2, 3], "");
    assert_eq!(ran.outcome, stopped(20, START, 0, false, false));
    // Before 23, 24 and 26.
    let ran = go("if r0\ninit\nelse\nendif", &[0, 0, 0], "61 01");
    assert_eq!(ran.outcome, stopped(20, START + 4, 1, true, false));
    let ran = go("load r0 a0[r1]", &[0, 9, 0], "");
    assert_eq!(ran.outcome, stopped(20, START, 0, false, false));
    for text in &["const r0 5", "load r0 a0[1]", "store a0[1] r0"] {
        let ran = common::ran(&code(text), &[1, 2, 3], &MEMORY, "", 0);
        assert_eq!(ran.outcome, stopped(20, START, 0, false, false));
    }
}

#[test]
fn stop_21() {
    // Before 20, 22 and 26; misspeculating or not.
    for list in &["", "60", "61 01", "63 00 00"] {
        let ran = common::ran(&code(""), &[1, 2, 3], &MEMORY, list, 0);
        assert_eq!(ran.outcome, stopped(21, START, 0, false, false));
    }
    let ran = go("if r0\nelse\nendif", &[0, 0, 0], "61 01 60");
    assert_eq!(ran.outcome, stopped(21, START + 8, 2, true, false));
}

#[test]
fn stop_22() {
    let nothing_done = |text: &str, list: &str| {
        let ran = common::ran(&code(text), &[0, 1, 2], &MEMORY, list, 0);
        // Before 26.
        assert_eq!(ran.outcome, stopped(22, START, 0, false, false), "{} {}", text, list);
        assert_eq!(ran.registers, [0, 1, 2]);
        assert_eq!(ran.memory, MEMORY);
    };
    for text in &[
        "const r0 5",
        "add r0 r1 r2",
        "select r0 r1 r2 r2",
        "load r0 a0[r1]",
        "store a0[r1] r0",
        "load r0 a0[1]",
        "store a0[1] r0",
        "init",
        "update r0 zero",
        "protect r0 r1",
    ] {
        for list in &["61 00", "61 01", "62 00 00 00", "62 09 00 00", "63 1B 00"] {
            nothing_done(text, list);
        }
    }
    for text in &["if r0\nelse\nendif", "while r0 unknown /\nendwhile"] {
        for list in &["60", "62 00 00 00", "63 1B 00"] {
            nothing_done(text, list);
        }
    }
    // ELSE, ENDIF, ENDWHILE, CALL, RETURN.
    let ran = go("if r1\nelse\nendif", &[0, 1, 2], "61 01 61 01");
    assert_eq!(ran.outcome, stopped(22, START + 4, 1, false, false));
    let ran = go("if r0\nelse\nendif", &[0, 1, 2], "61 00 61 01");
    assert_eq!(ran.outcome, stopped(22, START + 7, 1, false, false));
    let ran = go("while r1 unknown /\nendwhile", &[0, 1, 2], "61 01 61 01");
    assert_eq!(ran.outcome, stopped(22, START + 11, 1, false, false));
    let calls = calls();
    let ran = common::ran(&calls, &[0], &[], "61 01", 9);
    assert_eq!(ran.outcome, stopped(22, ENTRY, 0, false, false));
    let ran = common::ran(&calls, &[0], &[], "60 60", 9);
    assert_eq!(ran.outcome, stopped(22, LEAF, 1, false, false));
    // Out of range while misspeculating: 60 is the wrong kind.
    let ran = go("if r0\nload r0 a0[r1]\nelse\nendif", &[0, 9, 0], "61 01 60");
    assert_eq!(ran.outcome, stopped(22, START + 4, 1, true, false));
    // In range while misspeculating: 62 is.
    let ran = go("if r0\nload r0 a0[r1]\nelse\nendif", &[0, 1, 0], "61 01 62 00 00 00");
    assert_eq!(ran.outcome, stopped(22, START + 4, 1, true, false));
    // At a fixed place it always is, real word or not, and so is any other; before
    // 26.
    for access in &["load r0 a0[1]", "store a1[2] r2"] {
        let text = format!("if r0\n{}\nelse\nendif", access);
        for list in &["62 00 01 00", "62 01 02 00", "62 09 00 00", "61 00", "61 01", "63 1F 00"] {
            let list = format!("61 01 {}", list);
            for &room in &[2, 64] {
                let ran = common::ran(&code(&text), &[0, 9, 7], &MEMORY, &list, room);
                assert_eq!(ran.outcome, stopped(22, START + 4, 1, true, false), "{}", list);
                assert_eq!(ran.registers, [0, 9, 7]);
                assert_eq!(ran.memory, MEMORY);
                assert_eq!(ran.observations[2..], vec![0xee; room - 2]);
            }
        }
    }
}

#[test]
fn stop_23() {
    for list in &["61 01 60", "61 01 61 00", "61 01 62 00 00 00"] {
        let ran = common::ran(&code("if r0\ninit\nelse\nendif"), &[0, 1, 2], &MEMORY, list, 2);
        assert_eq!(ran.outcome, stopped(23, START + 4, 1, true, false));
    }
}

#[test]
fn stop_24() {
    // Before 22 and 26, LOAD and STORE.
    for text in &["load r0 a0[r1]", "store a0[r1] r0"] {
        for list in &["60", "62 00 00 00", "61 00"] {
            for &index in &[2, 3, u32::MAX] {
                let ran = common::ran(&code(text), &[0, index, 0], &MEMORY, list, 0);
                assert_eq!(ran.outcome, stopped(24, START, 0, false, false));
                assert_eq!(ran.memory, MEMORY);
            }
        }
    }
}

#[test]
fn stop_25() {
    // "no such word", before 26.
    for text in &["load r2 a0[r1]", "store a0[r1] r0"] {
        let text = format!("if r0\n{}\nelse\nendif", text);
        for list in &["62 00 02 00", "62 01 03 00", "62 02 00 00", "62 FF 00 00", "62 00 00 01"] {
            let list = format!("61 01 {}", list);
            let ran = common::ran(&code(&text), &[0, 9, 5], &MEMORY, &list, 2);
            assert_eq!(ran.outcome, stopped(25, START + 4, 1, true, false));
            assert_eq!(ran.registers, [0, 9, 5]);
            assert_eq!(ran.memory, MEMORY);
        }
    }
    // "no such return place": a CALL of another function, a byte that only looks
    // like a CALL, a place that is no record's.
    let table = calls();
    for place in &["00 00", "01 00", "FF FF"] {
        let list = format!("60 63 {}", place);
        let ran = common::ran(&table, &[0], &[], &list, 1);
        assert_eq!(ran.outcome, stopped(25, LEAF, 1, false, false), "{}", place);
    }
    for place in 0..table.len() {
        let is_site = [MIDDLE + 3, MIDDLE + 6, ENTRY + 3, ENTRY + 15].contains(&place);
        let list = format!("60 63 {:02X} {:02X}", place % 256, place / 256);
        let ran = common::ran(&table, &[0], &[], &list, 2);
        let number = match ran.outcome {
            second::Outcome::Stopped { number, .. } => number,
            _ => 0,
        };
        assert_eq!(number == 25, !is_site, "{}", place);
    }
}

#[test]
fn stop_26() {
    for &(text, list, needs) in &[
        ("const r0 5", "60", 1),
        ("init", "60", 1),
        ("load r0 a0[r1]", "60", 6),
        ("store a0[r1] r0", "60", 6),
        ("load r0 a0[1]", "60", 6),
        ("store a0[1] r0", "60", 6),
        ("if r0\nelse\nendif", "61 01", 2),
        ("while r0 unknown /\nendwhile", "61 00", 2),
    ] {
        for room in 0..needs {
            let ran = common::ran(&code(text), &[7, 1, 2], &MEMORY, list, room);
            assert_eq!(ran.outcome, stopped(26, START, 0, false, false), "{}", text);
            assert_eq!(ran.registers, [7, 1, 2]);
            assert_eq!(ran.memory, MEMORY);
            assert_eq!(ran.observations, vec![0xee; room]);
        }
        let ran = common::ran(&code(text), &[7, 1, 2], &MEMORY, list, needs);
        assert!(!matches!(ran.outcome, second::Outcome::Stopped { number: 26, .. }));
    }
    // RETURN and CALL.
    let table = calls();
    let ran = common::ran(&table, &[0], &[], "60", 0);
    assert_eq!(ran.outcome, stopped(26, ENTRY, 0, false, false));
    let list = format!("60 63 {:02X} 00", ENTRY + 3);
    let ran = common::ran(&table, &[0], &[], &list, 1);
    assert_eq!(ran.outcome, stopped(26, LEAF, 1, false, false));
    let list = format!("60 63 {:02X} 00", MIDDLE + 3);
    let ran = common::ran(&table, &[0], &[], &list, 1);
    assert_eq!(ran.outcome, stopped(26, LEAF, 1, false, false));
}

/// f0 (the leaf) only returns; f1 (the middle) calls it twice, the second time
/// marked; f2 (the entry) calls f0, then f1, then f0 marked. A constant between
/// holds bytes that look like CALLs of f0.
fn calls() -> Vec<u8> {
    let table = asm("sizes 1 0 3
        signature unknown P/ unknown P/
        signature unknown P/ unknown P/
        signature unknown P/ unknown P/
        return
        call f0
        call f0 marked
        return
        call f0
        call f1
        const r0 0x01001800
        call f0 marked
        return");
    assert_eq!(
        second::check(&table),
        second::Verdict::Accepted { functions: 3, bytes: table.len() }
    );
    table
}

const LEAF: usize = 55;
const MIDDLE: usize = 56;
const ENTRY: usize = 63;

#[test]
fn calls_and_returns() {
    let table = calls();
    assert_eq!(table[ENTRY..ENTRY + 3], [0x18, 0x00, 0x00]);
    let to = |place: usize| format!("63 {:02X} {:02X} ", place % 256, place / 256);

    // The right path: f0, f1 (f0, f0), f0.
    let right = "60 ".to_string()
        + &to(ENTRY + 3)
        + "60 60 "
        + &to(MIDDLE + 3)
        + "60 "
        + &to(MIDDLE + 6)
        + &to(ENTRY + 6)
        + "60 60 "
        + &to(ENTRY + 15);
    let ran = common::ran(&table, &[0], &[], &right, 11);
    assert_eq!(ran.outcome, stopped(21, table.len() - 1, 11, false, false));
    assert_eq!(ran.observations, [0x70; 11]);

    // A wrong return to an unmarked CALL: misspeculating, flag left.
    let list = "60 ".to_string() + &to(MIDDLE + 3);
    let ran = common::ran(&table, &[0], &[], &list, 9);
    assert_eq!(ran.outcome, stopped(20, MIDDLE + 3, 2, true, false));
    // To a marked one: masked.
    let list = "60 ".to_string() + &to(MIDDLE + 6);
    let ran = common::ran(&table, &[0], &[], &list, 9);
    assert_eq!(ran.outcome, stopped(20, MIDDLE + 6, 2, true, true));
    // The stack is empty then: the middle's RETURN may go after any CALL of it,
    // which is a wrong return too, though the place is the same as ever.
    let again = list.clone() + &to(ENTRY + 6);
    let ran = common::ran(&table, &[0], &[], &again, 9);
    assert_eq!(ran.outcome, stopped(20, ENTRY + 6, 3, true, true));
    // It may not go after a CALL of the leaf.
    let not = list + &to(ENTRY + 3);
    let ran = common::ran(&table, &[0], &[], &not, 9);
    assert_eq!(ran.outcome, stopped(25, MIDDLE + 6, 2, true, true));
    // Deeper in the stack is not on top of it: in the leaf under the middle, the
    // middle's own return place follows no CALL of the leaf.
    let deep = "60 ".to_string() + &to(ENTRY + 3) + "60 60 " + &to(ENTRY + 6);
    let ran = common::ran(&table, &[0], &[], &deep, 9);
    assert_eq!(ran.outcome, stopped(25, LEAF, 4, false, false));
    // And the entry's first return place does, but empties the stack.
    let deep = "60 ".to_string() + &to(ENTRY + 3) + "60 60 " + &to(ENTRY + 3) + "60 60 ";
    let ran = common::ran(&table, &[0], &[], &deep, 9);
    assert_eq!(ran.outcome, stopped(20, LEAF, 7, true, false));
}

#[test]
fn the_stack_holds_31() {
    let mut text = "sizes 1 0 32\n".to_string();
    text += &"signature unknown P/ unknown P/\n".repeat(32);
    text += "return\n";
    for function in 0..31 {
        text += &format!("call f{}\nreturn\n", function);
    }
    let table = asm(&text);
    let read = second::table::read(&table).expect("reads");
    let mut list = vec![0x60; 31];
    for function in 1..32 {
        let place = read.start(function) as u16 + 3;
        list.push(0x63);
        list.extend_from_slice(&place.to_le_bytes());
    }
    let mut observations = [0; 62];
    let outcome = run(&table, &mut [0], &mut [], &list, &mut observations);
    assert_eq!(outcome, stopped(21, table.len() - 1, 62, false, false));
}

#[test]
fn operations() {
    let big = u32::MAX;
    for &(op, left, right, result) in &[
        ("add", 3, 4, 7),
        ("add", big, 2, 1),
        ("sub", 3, 4, big),
        ("sub", 4, 3, 1),
        ("mul", 0x10001, 0x10001, 0x20001),
        ("xor", 12, 10, 6),
        ("and", 12, 10, 8),
        ("or", 12, 10, 14),
        ("less", 3, 4, 1),
        ("less", 4, 4, 0),
        ("less", big, 0, 0),
        ("equal", 4, 4, 1),
        ("equal", 4, 5, 0),
    ] {
        let ran = go(&format!("{} r0 r1 r2", op), &[9, left, right], "60");
        assert_eq!(ran.registers, [result, left, right], "{}", op);
        assert_eq!(ran.outcome, stopped(21, START + 5, 1, false, false));
        assert_eq!(ran.observations[..2], [0x70, 0xee]);
    }
    // SELECT: "yes" when cond is not zero.
    assert_eq!(go("select r0 r0 r1 r2", &[7, 1, 2], "60").registers, [1, 1, 2]);
    assert_eq!(go("select r0 r0 r1 r2", &[0, 1, 2], "60").registers, [2, 1, 2]);
    assert_eq!(go("const r2 4294967295", &[0, 1, 2], "60").registers, [0, 1, big]);
}

#[test]
fn accesses() {
    let ran = go("load r0 a1[r1]", &[0, 2, 0], "60");
    assert_eq!(ran.registers, [22, 2, 0]);
    assert_eq!(ran.observations[..7], [0x72, 1, 2, 0, 0, 0, 0xee]);
    let ran = go("store a1[r1] r2", &[0, 0, 77], "60");
    assert_eq!(ran.memory, [10, 11, 77, 21, 22]);
    assert_eq!(ran.observations[..7], [0x72, 1, 0, 0, 0, 0, 0xee]);
    // Astray: the word is the directive's, the observation the record's.
    let load = "if r0\nload r2 a0[r1]\nelse\nendif";
    let ran = go(load, &[0, 0x0403_0201, 0], "61 01 62 01 01 00 60");
    assert_eq!(ran.registers, [0, 0x0403_0201, 21]);
    assert_eq!(ran.observations[..10], [0x71, 0, 0x72, 0, 1, 2, 3, 4, 0x70, 0xee]);
    assert_eq!(ran.outcome, stopped(21, START + 12, 3, true, false));
    let store = "if r0\nstore a1[r1] r2\nelse\nendif";
    let ran = go(store, &[0, 3, 77], "61 01 62 00 01 00 60");
    assert_eq!(ran.memory, [10, 77, 20, 21, 22]);
    assert_eq!(ran.observations[..8], [0x71, 0, 0x72, 1, 3, 0, 0, 0]);
}

/// 02, order 1: "Both take the plain directive and observe the address."
#[test]
fn fixed_accesses() {
    // The registers' values do not matter: no 24.
    for &other in &[0, 9, u32::MAX] {
        let ran = go("load r0 a1[2]", &[other, other, 0], "60");
        assert_eq!(ran.outcome, stopped(21, START + 5, 1, false, false));
        assert_eq!(ran.registers, [22, other, 0]);
        assert_eq!(ran.memory, MEMORY);
        assert_eq!(ran.observations[..7], [0x72, 1, 2, 0, 0, 0, 0xee]);
        let ran = go("store a1[0] r1", &[other, 77, other], "60");
        assert_eq!(ran.outcome, stopped(21, START + 5, 1, false, false));
        assert_eq!(ran.registers, [other, 77, other]);
        assert_eq!(ran.memory, [10, 11, 77, 21, 22]);
        assert_eq!(ran.observations[..7], [0x72, 1, 0, 0, 0, 0, 0xee]);
    }
    // First and last words; the neighbours stay.
    assert_eq!(go("load r1 a0[0]", &[0, 0, 0], "60").registers, [0, 10, 0]);
    assert_eq!(go("load r1 a0[1]", &[0, 0, 0], "60").registers, [0, 11, 0]);
    assert_eq!(go("load r1 a1[0]", &[0, 0, 0], "60").registers, [0, 20, 0]);
    assert_eq!(go("store a0[1] r2", &[0, 0, 77], "60").memory, [10, 77, 20, 21, 22]);
    assert_eq!(go("store a1[2] r2", &[0, 0, 77], "60").memory, [10, 11, 20, 21, 77]);

    // Misspeculating: the same.
    let both = "if r0\nload r1 a0[1]\nstore a1[2] r1\nelse\nendif";
    let ran = go(both, &[0, 0, 0], "61 01 60 60 60");
    assert_eq!(ran.outcome, stopped(21, START + 18, 4, true, false));
    assert_eq!(ran.registers, [0, 11, 0]);
    assert_eq!(ran.memory, [10, 11, 20, 21, 11]);
    assert_eq!(ran.observations[..14], [0x71, 0, 0x72, 0, 1, 0, 0, 0, 0x72, 1, 2, 0, 0, 0]);
    assert_eq!(ran.observations[14..16], [0x70, 0xee]);
    // Masked: LOAD FIXED has nothing to do with the flag.
    let ran = go("update r0 nonzero\nload r1 a0[1]", &[0, 0, 0], "60 60");
    assert_eq!(ran.outcome, stopped(21, START + 8, 2, false, true));
    assert_eq!(ran.registers, [0, 11, 0]);
    // What a stray STORE left is read.
    let spilled = "if r0\nstore a0[r1] r2\nload r1 a1[2]\nelse\nendif";
    let ran = go(spilled, &[0, 9, 77], "61 01 62 01 02 00 60 60");
    assert_eq!(ran.outcome, stopped(21, START + 17, 4, true, false));
    assert_eq!(ran.registers, [0, 77, 77]);

    // A long array: the index has two bytes in the record and four as observed.
    let table = asm("sizes 1 1 1\narray 1024\nsignature unknown / unknown /\n\
                     load r0 a0[1023]\nstore a0[258] r0\nreturn");
    let mut memory: Vec<u32> = (5_000..6_024).collect();
    let ran = common::ran(&table, &[0], &memory, "60 60", 12);
    assert_eq!(ran.outcome, stopped(21, 34, 2, false, false));
    assert_eq!(ran.registers, [6_023]);
    memory[258] = 6_023;
    assert_eq!(ran.memory, memory);
    assert_eq!(ran.observations, [0x72, 0, 0xff, 3, 0, 0, 0x72, 0, 2, 1, 0, 0]);
}

#[test]
fn branches() {
    let both = "if r0\nconst r1 1\nelse\nconst r1 2\nendif\nconst r2 3";
    for &(guard, way, seen, result, wrong) in &[
        (5, "61 01", 1, 1, false),
        (5, "61 00", 1, 2, true),
        (0, "61 01", 0, 1, true),
        (0, "61 00", 0, 2, false),
    ] {
        let ran = go(both, &[guard, 0, 0], &format!("{} 60 60 60", way));
        assert_eq!(ran.registers, [guard, result, 3]);
        assert_eq!(ran.observations[..6], [0x71, seen, 0x70, 0x70, 0x70, 0xee]);
        assert_eq!(ran.outcome, stopped(21, START + 26, 4, wrong, false));
    }
    // Once misspeculating, always.
    let ran = go(both, &[0, 0, 0], "61 01 60 60 60");
    assert_eq!(ran.outcome, stopped(21, START + 26, 4, true, false));

    let looping = "while r0 unknown /\nsub r0 r0 r1\nendwhile";
    let ran = go(looping, &[2, 1, 0], "61 01 60 60 61 01 60 60 61 00");
    assert_eq!(ran.registers, [0, 1, 0]);
    assert_eq!(ran.outcome, stopped(21, START + 19, 7, false, false));
    assert_eq!(ran.observations[..11], [0x71, 1, 0x70, 0x70, 0x71, 1, 0x70, 0x70, 0x71, 0, 0xee]);
    let ran = go(looping, &[2, 1, 0], "61 00");
    assert_eq!(ran.outcome, stopped(21, START + 19, 1, true, false));
    let ran = go(looping, &[0, 1, 0], "61 01");
    assert_eq!(ran.outcome, stopped(20, START + 11, 1, true, false));
}

#[test]
fn the_flag() {
    // UPDATE masks when its condition is false, misspeculating or not.
    for &(sense, value, masked) in
        &[("nonzero", 0, true), ("nonzero", 9, false), ("zero", 0, false), ("zero", 9, true)]
    {
        let text = format!("update r0 {}\nprotect r1 r2", sense);
        let ran = go(&text, &[value, 0, 5], "60 60");
        assert_eq!(ran.outcome, stopped(21, START + 6, 2, false, masked));
        let word = if masked { 4_294_967_295 } else { 5 };
        assert_eq!(ran.registers, [value, word, 5]);
    }
    // A true condition does not clear it; INIT does.
    let ran = go("update r0 nonzero\nupdate r0 zero", &[0, 0, 5], "60 60");
    assert_eq!(ran.outcome, stopped(21, START + 6, 2, false, true));
    let ran = go("update r0 nonzero\ninit\nprotect r1 r2", &[0, 0, 5], "60 60 60");
    assert_eq!(ran.outcome, stopped(21, START + 7, 3, false, false));
    assert_eq!(ran.registers, [0, 5, 5]);
}

#[test]
fn leftover_directives_and_room_are_left() {
    let ran = common::ran(&table_b(), &[0, 1], &[3, 2, 9, 7], "60 60 60 60 61 01 63 00 00", 20);
    assert_eq!(ran.outcome, stopped(21, 36, 4, false, false));
    assert_eq!(ran.observations[14..], [0xee; 6]);
}
