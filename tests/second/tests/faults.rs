//! Each fault number, its place, its order among the others, and what its
//! message shows.

mod common;

use common::{asm, hex, naive, ran, refused, table_a, table_b, verdict};
use second::message::{self, Part, Slice};
use second::{check, run, Outcome, Verdict};

/// The table is refused so, the plain checker agrees, and the message shows so
/// many bytes from the place.
fn fails(table: &[u8], number: u8, place: usize, shown: usize) {
    let verdict = check(table);
    assert_eq!(verdict, Verdict::Refused { number, place });
    assert_eq!(naive::check(table), Err((number, place)));
    let part = message::of_verdict(&verdict, table);
    let expected = Part { slice: Slice::Table, offset: place, length: shown };
    assert_eq!(part, expected);
    assert_eq!(part.of(table, &[]), &table[place..place + shown]);
    // Running reads alike, and leaves all as lent; it does not type.
    if number < 10 {
        let ran = ran(table, &[5, 6], &[7, 8, 9, 1], "60 FF", 9);
        assert_eq!(ran.outcome, refused(number, place));
        assert_eq!(ran.registers, [5, 6]);
        assert_eq!(ran.memory, [7, 8, 9, 1]);
        assert_eq!(ran.observations, [0xee; 9]);
        assert_eq!(message::of_outcome(&ran.outcome, table, &[]), expected);
    }
}

/// B with one byte changed.
fn b_with(at: usize, byte: u8) -> Vec<u8> {
    let mut table = table_b();
    table[at] = byte;
    table
}

#[test]
fn fault_01() {
    let mut table = table_b();
    table.resize(32_769, 0);
    fails(&table, 1, 0, 0);
    // First of all, whatever else is wrong.
    fails(&vec![0xff; 40_000], 1, 0, 0);
    fails(&vec![0xff; 32_768], 3, 0, 1);
}

#[test]
fn fault_02() {
    fails(&[], 2, 0, 0);
    let table = table_b();
    let starts = [0, 4, 7, 24, 25, 29, 32, 36];
    for length in 0..table.len() {
        let start = *starts.iter().rev().find(|&&start| start <= length).unwrap();
        fails(&table[..length], 2, start, length - start);
    }
}

#[test]
fn fault_03() {
    // Unknown, or of another part of the table.
    fails(&b_with(0, 0x02), 3, 0, 1);
    fails(&b_with(0, 0x00), 3, 0, 1);
    fails(&b_with(4, 0x03), 3, 4, 1);
    fails(&b_with(7, 0x02), 3, 7, 1);
    fails(&b_with(7, 0x25), 3, 7, 1);
    for kind in 0..=0xff {
        if !matches!(kind, 0x10..=0x18 | 0x1b | 0x1c | 0x20 | 0x23 | 0x25) {
            fails(&b_with(24, kind), 3, 24, 1);
            // Before 2: the record would be cut too.
            fails(&b_with(36, kind), 3, 36, 1);
        }
    }
    // Not allowed in a first block, a second block, a body.
    let head = "sizes 1 0 1\nsignature unknown P/ unknown P/ @21\n";
    for &(code, place, allowed) in &[
        ("if r0 @0\n", 25, 0x21),
        ("if r0 @25\nelse @0\n", 28, 0x22),
        ("while r0 unknown P/ @0\n", 32, 0x24),
    ] {
        for &kind in &[0x21, 0x22, 0x24, 0x25] {
            let table = asm(&format!("{}{}hex {:02X} 00 00", head, code, kind));
            if kind == allowed {
                assert!(!verdict(&table).starts_with("refused 3"), "{:x}", kind);
            } else {
                fails(&table, 3, place, 1);
            }
        }
    }
}

#[test]
fn fault_04() {
    // Sizes.
    for &(at, bad) in &[(1, 0), (1, 17), (2, 9), (3, 0), (3, 33), (3, 255)] {
        fails(&b_with(at, bad), 4, 0, 4);
    }
    // Array: 0, 1025.
    fails(&b_with(5, 0), 4, 4, 3);
    let mut table = b_with(5, 1);
    table[6] = 4;
    fails(&table, 4, 4, 3);
    table[5] = 0;
    assert_eq!(verdict(&table), "accepted 1 functions 37 bytes");
    // Signature: status 2, level 3, unused register 2, unused array 1.
    for &at in &[10, 17] {
        fails(&b_with(at, 2), 4, 7, 17);
        fails(&b_with(at + 1, 0x03), 4, 7, 17);
        fails(&b_with(at + 1, 0x0c), 4, 7, 17);
        fails(&b_with(at + 1, 0x10), 4, 7, 17);
        fails(&b_with(at + 4, 0x80), 4, 7, 17);
        fails(&b_with(at + 5, 0x03), 4, 7, 17);
        fails(&b_with(at + 5, 0x04), 4, 7, 17);
        fails(&b_with(at + 6, 0x40), 4, 7, 17);
    }

    // Every field of every instruction, one over its range; in function 1 of 2,
    // 2 registers and 1 array.
    let head = "sizes 2 1 2\narray 4\nsignature unknown /  unknown SS/S\n\
                signature unknown / unknown SS/S\nreturn\n";
    let records = [
        ("const r2 0", 6),
        ("add r2 r0 r0", 5),
        ("op 8 r0 r0 r0", 5),
        ("add r0 r2 r0", 5),
        ("add r0 r0 r2", 5),
        ("select r2 r0 r0 r0", 5),
        ("select r0 r2 r0 r0", 5),
        ("select r0 r0 r2 r0", 5),
        ("select r0 r0 r0 r2", 5),
        ("load r2 a0[r0]", 4),
        ("load r0 a1[r0]", 4),
        ("load r0 a0[r2]", 4),
        ("store a1[r0] r0", 4),
        ("store a0[r2] r0", 4),
        ("store a0[r0] r2", 4),
        ("update r2 zero", 3),
        ("update r0 2", 3),
        ("protect r2 r0", 3),
        ("protect r0 r2", 3),
        ("call f2", 3),
        ("call f255 marked", 3),
        ("call f0 2", 3),
        ("load r2 a0[0]", 5),
        ("load r255 a0[0]", 5),
        ("load r0 a1[0]", 5),
        ("load r0 a255[0]", 5),
        ("load r0 a0[4]", 5),
        ("load r0 a0[5]", 5),
        ("load r0 a0[256]", 5),
        ("load r0 a0[65535]", 5),
        ("store a1[0] r0", 5),
        ("store a255[0] r0", 5),
        ("store a0[4] r0", 5),
        ("store a0[5] r0", 5),
        ("store a0[256] r0", 5),
        ("store a0[65535] r0", 5),
        ("store a0[0] r2", 5),
        ("store a0[0] r255", 5),
        ("if r2 @0", 4),
        ("while r2 unknown / @0", 11),
        ("while r0 2 / @0", 11),
        ("while r0 unknown X/ @0", 11),
        ("while r0 unknown PPT/ @0", 11),
        ("while r0 unknown /X @0", 11),
        ("while r0 unknown /PPPPPPPT @0", 11),
    ];
    for &(record, length) in &records {
        let table = asm(&format!("{}init\n{}\nreturn\n", head, record));
        fails(&table, 4, 43, length);
        // 2 before 4: cut by its last byte.
        fails(&table[..43 + length - 1], 2, 43, length - 1);
    }
}

/// 02, order 1: "index not below the array's words, 4".
#[test]
fn fault_04_of_fixed_indices() {
    for &words in &[1, 2, 255, 256, 257, 1023, 1024] {
        let table = |record: &str, index: u32| {
            let record = record.replace("INDEX", &index.to_string());
            // The array before it and the one after it are of other lengths.
            asm(&format!(
                "sizes 1 3 1\narray 1024\narray {}\narray 1024\n\
                 signature unknown P/PPP unknown P/PPP\n{}\nreturn",
                words, record
            ))
        };
        for record in &["load r0 a1[INDEX]", "store a1[INDEX] r0"] {
            for &index in &[0, words / 2, words - 1] {
                assert_eq!(verdict(&table(record, index)), "accepted 1 functions 36 bytes");
                assert_eq!(naive::check(&table(record, index)), Ok(1));
            }
            for &index in &[words, words + 1, words + 256, 32_768, 65_535] {
                fails(&table(record, index), 4, 30, 5);
            }
        }
    }
    // No array at all.
    for record in &["load r0 a0[0]", "store a0[0] r0"] {
        let head = "sizes 1 0 1\nsignature unknown P/ unknown P/\n";
        fails(&asm(&format!("{}{}\nreturn", head, record)), 4, 21, 5);
    }
    // 4 before the 5 of a start place; it and 2 before any later record's fault.
    let head = "sizes 1 1 1\narray 4\nsignature unknown P/P unknown P/P @0\n";
    for record in &["load r0 a0[4]", "store a0[4] r0"] {
        fails(&asm(&format!("{}{}\nhex FF", head, record)), 4, 24, 5);
    }
    for record in &["load r0 a0[3]", "store a0[3] r0"] {
        fails(&asm(&format!("{}{}\nhex FF", head, record)), 5, 24, 5);
    }
    // Before typing: the LOAD before it has a secret index.
    let head = "sizes 1 1 1\narray 4\nsignature unknown S/P unknown S/P\n";
    fails(&asm(&format!("{}load r0 a0[r0]\nload r0 a0[4]\nreturn", head)), 4, 28, 5);
}

#[test]
fn fault_02_of_fixed_accesses() {
    let head = "sizes 1 1 1\narray 4\nsignature unknown P/P unknown P/P\nload r0 a0[3]\n";
    for record in &["load r0 a0[3]", "store a0[3] r0"] {
        let table = asm(&format!("{}{}\nreturn", head, record));
        assert_eq!(table.len(), 35);
        for length in 29..34 {
            fails(&table[..length], 2, 29, length - 29);
        }
        // Whole, and then a record is due.
        fails(&table[..34], 2, 34, 0);
    }
    // Cut, and what is there out of range: 2.
    let mut table = asm(head);
    table.extend(hex("1B FF FF FF"));
    fails(&table, 2, 29, 4);
    table[29] = 0x1c;
    fails(&table, 2, 29, 4);
}

#[test]
fn fault_05() {
    // A start place: at the function's first record, after 3, 2 and 4 there.
    fails(&b_with(8, 0x19), 5, 24, 1);
    fails(&b_with(9, 0x01), 5, 24, 1);
    let mut table = b_with(8, 0x19);
    table[24] = 0x19;
    fails(&table, 3, 24, 1);
    fails(&table[..24], 2, 24, 0);
    let wrong_start = "sizes 1 0 2\nsignature unknown P/ unknown P/ @1\n\
                       signature unknown P/ unknown P/\n";
    fails(&asm(&format!("{}const r1 0\nreturn\nreturn", wrong_start)), 4, 38, 6);
    // Before 7.
    fails(&asm(&format!("{}call f1\nreturn\nreturn", wrong_start)), 5, 38, 3);
    fails(&asm(&format!("{}return\nreturn", wrong_start)), 5, 38, 1);

    // The others: "the later record of the two".
    let head = "sizes 1 0 1\nsignature unknown P/ unknown P/\n";
    for &(code, place, length) in &[
        ("if r0 @24\nelse\nendif\nreturn", 25, 3),
        ("if r0 @28\nelse\nendif\nreturn", 25, 3),
        ("if r0\nelse @27\nendif\nreturn", 28, 1),
        ("if r0\nelse @29\nendif\nreturn", 28, 1),
        ("while r0 unknown P/ @31\nendwhile\nreturn", 32, 3),
        ("while r0 unknown P/\nendwhile @20\nreturn", 32, 3),
        ("while r0 unknown P/\nendwhile @32\nreturn", 32, 3),
        ("while r0 unknown P/ @0\nendwhile @0\nreturn", 32, 3),
    ] {
        fails(&asm(&format!("{}{}", head, code)), 5, place, length);
    }
    // 2 before 5 at the ELSE.
    let table = asm(&format!("{}if r0 @24\nhex 21 00", head));
    fails(&table, 2, 25, 2);
}

#[test]
fn fault_06() {
    let head = "sizes 1 0 1\nsignature unknown P/ unknown P/\n";
    let table = asm(&format!("{}{}", head, "if r0 @0\n".repeat(17)));
    fails(&table, 6, 21 + 4 * 16, 4);
    // The 17th at last; before it no ELSE is due.
    fails(&table[..table.len() - 1], 2, 21 + 4 * 16, 3);
    // 4 before 6.
    let mut table = table;
    let at = table.len() - 3;
    table[at] = 1;
    fails(&table, 4, 21 + 4 * 16, 4);
    let text = format!("{}{}", head, "while r0 unknown P/ @0\n".repeat(17));
    fails(&asm(&text), 6, 21 + 11 * 16, 11);
    // In the second block of a WHILE's IF and so on it is the same count.
    let text = format!(
        "{}{}{}",
        head,
        "while r0 unknown P/\nif r0\nelse\n".repeat(8),
        "while r0 unknown P/\nendwhile\n".to_string() + &"endif\nendwhile\n".repeat(8) + "return"
    );
    fails(&asm(&text), 6, 21 + 18 * 8, 11);
}

#[test]
fn fault_07() {
    let head = "sizes 1 0 3\nsignature unknown P/ unknown P/\n\
                signature unknown P/ unknown P/\nsignature unknown P/ unknown P/\n";
    // Itself, a higher one.
    fails(&asm(&format!("{}return\ncall f1\nreturn\nreturn", head)), 7, 56, 3);
    fails(&asm(&format!("{}return\ncall f2\nreturn\nreturn", head)), 7, 56, 3);
    fails(&asm(&format!("{}call f0\nreturn\nreturn\nreturn", head)), 7, 55, 3);
    // No such function: 4 comes first.
    fails(&asm(&format!("{}return\ncall f3\nreturn\nreturn", head)), 4, 56, 3);
    let good = asm(&format!("{}return\ncall f0\nreturn\ncall f1\ncall f0 marked\nreturn", head));
    assert_eq!(verdict(&good), "accepted 3 functions 67 bytes");
    assert_eq!(naive::check(&good), Ok(3));
}

#[test]
fn fault_08() {
    fails(&b_with(10, 1), 8, 7, 17);
    // 4 before 8.
    let mut table = b_with(10, 1);
    table[17] = 2;
    fails(&table, 4, 7, 17);
    // Only the entry's, only in.
    assert_eq!(verdict(&b_with(17, 1)), "accepted 1 functions 37 bytes");
    let two = asm("sizes 1 0 2\nsignature updated P/ updated P/\n\
                   signature unknown P/ unknown P/\nreturn\nreturn");
    assert_eq!(verdict(&two), "accepted 2 functions 40 bytes");
}

#[test]
fn fault_09() {
    for extra in &["00", "25", "15 25", "FF FF FF"] {
        let mut table = table_b();
        let extra = hex(extra);
        table.extend_from_slice(&extra);
        fails(&table, 9, 37, extra.len());
    }
    // Before any typing.
    let mut table = table_a();
    table.push(0x25);
    fails(&table, 9, 33, 1);
}

#[test]
fn fault_10() {
    fails(&table_a(), 10, 28, 4);
    let head = "sizes 3 1 1\narray 4\nsignature unknown PTS/P unknown SSS/S\n";
    for &(code, length) in &[
        ("load r0 a0[r1]", 4),
        ("load r0 a0[r2]", 4),
        ("store a0[r1] r0", 4),
        ("store a0[r2] r0", 4),
        ("if r1\nelse\nendif", 4),
        ("if r2\nelse\nendif", 4),
        ("while r1 unknown PTS/P\nendwhile", 11),
        ("while r0 unknown TTS/P\nendwhile", 11),
    ] {
        fails(&asm(&format!("{}{}\nreturn", head, code)), 10, 24, length);
    }
    // LOAD FIXED and STORE FIXED have no such demand, but what a LOAD FIXED gives
    // is as its array.
    let head = "sizes 3 3 1\narray 4\narray 4\narray 4\n\
                signature unknown PTS/PTS unknown SSS/SSS\n";
    for &(code, length) in &[
        ("load r0 a0[r1]", 4),
        ("store a0[r1] r0", 4),
        ("if r1\nelse\nendif", 4),
        ("while r1 unknown PTS/PTS\nendwhile", 11),
        ("while r1 unknown PSS/PTS\nendwhile", 11),
    ] {
        for array in 0..3 {
            let load = format!("load r1 a{}[3]", array);
            let table = asm(&format!("{}{}\n{}\nreturn", head, load, code));
            match (array, length) {
                // At WHILE 12 before 10.
                (2, 11) if code.contains("PTS/PTS\n") => fails(&table, 12, 35, 11),
                (0, 11) => fails(&table, 10, 35, 11),
                (0, _) => assert!(verdict(&table).starts_with("accepted"), "{}", code),
                _ => fails(&table, 10, 35, length),
            }
        }
    }
}

#[test]
fn fault_11() {
    let head = "sizes 2 1 1\narray 4\nsignature unknown PP/P unknown SS/S\n";
    for &(code, place) in &[
        ("protect r0 r0", 24),
        ("update r0 zero", 24),
        ("init\nupdate r0 zero", 25),
        ("init\nif r0\nprotect r1 r1\nelse\nendif", 29),
        ("init\nif r0\nupdate r0 zero\nelse\nendif", 29),
        ("init\nif r0\nupdate r1 nonzero\nelse\nendif", 29),
        ("init\nif r0\nelse\nupdate r0 nonzero\nendif", 32),
        // Written in between.
        ("init\nif r0\nconst r0 1\nupdate r0 nonzero\nelse\nendif", 35),
        ("init\nif r0\nadd r0 r1 r1\nupdate r0 nonzero\nelse\nendif", 34),
        ("init\nif r0\nselect r0 r1 r1 r1\nupdate r0 nonzero\nelse\nendif", 34),
        ("init\nif r0\nload r0 a0[r1]\nupdate r0 nonzero\nelse\nendif", 33),
        ("init\nif r0\nload r0 a0[0]\nupdate r0 nonzero\nelse\nendif", 34),
        ("init\nif r0\nelse\nload r0 a0[3]\nupdate r0 zero\nendif", 37),
        // An IF under outdated: both blocks unknown.
        ("init\nif r0\nif r0\nupdate r0 nonzero\nelse\nendif\nelse\nendif", 33),
        // After an IF the join of outdated(0,1) and outdated(0,0).
        ("init\nif r0\nelse\nendif\nprotect r0 r0", 33),
        // A loop environment that is unknown.
        ("init\nwhile r0 unknown PP/P\nupdate r0 nonzero\nendwhile", 36),
        ("init\nwhile r0 unknown PP/P\nendwhile\nprotect r0 r0", 39),
        // After a loop: outdated(r, 0).
        ("init\nwhile r0 updated PP/P\nupdate r0 nonzero\nendwhile\nupdate r0 nonzero", 42),
        ("init\nwhile r0 updated PP/P\nupdate r0 nonzero\nendwhile\nprotect r0 r0", 42),
    ] {
        fails(&asm(&format!("{}{}\nreturn", head, code)), 11, place, 3);
    }
    let good = "init\nif r0\nconst r1 1\nstore a0[r1] r1\nload r1 a0[0]\nstore a0[1] r1\n\
                update r0 nonzero\nelse\n\
                update r0 zero\nendif\nprotect r0 r0\n\
                while r0 updated PP/P\nupdate r0 nonzero\nendwhile\nupdate r0 zero\nprotect r1 r0\n";
    assert!(verdict(&asm(&format!("{}{}return", head, good))).starts_with("accepted"));
}

#[test]
fn fault_12() {
    let head = "sizes 2 1 1\narray 4\nsignature unknown PT/T unknown SS/S\n";
    for &(code, place, length) in &[
        // At WHILE: a register, an array, the status; before 10.
        ("while r0 unknown PP/T\nendwhile", 24, 11),
        ("while r0 unknown PT/P\nendwhile", 24, 11),
        ("while r0 updated PT/T\nendwhile", 24, 11),
        ("while r1 unknown PT/P\nendwhile", 24, 11),
        ("while r0 unknown TP/T\nendwhile", 24, 11),
        // At ENDWHILE: a register, an array, the status.
        ("while r0 unknown PT/T\nload r0 a0[r0]\nendwhile", 39, 3),
        ("while r0 unknown PS/T\nstore a0[r0] r1\nendwhile", 39, 3),
        ("while r0 unknown PT/T\nload r0 a0[3]\nendwhile", 40, 3),
        ("while r0 unknown PS/T\nstore a0[3] r1\nendwhile", 40, 3),
        ("init\nwhile r0 updated PP/T\nupdate r0 nonzero\nload r1 a0[0]\nendwhile", 44, 3),
        ("init\nwhile r0 updated PP/T\nendwhile", 36, 3),
        ("init\nwhile r0 updated PP/T\nupdate r0 nonzero\nconst r1 0\nif r1\nelse\nendif\nendwhile", 53, 3),
    ] {
        fails(&asm(&format!("{}{}\nreturn", head, code)), 12, place, length);
    }
}

#[test]
fn fault_13() {
    let callee = |input: &str| {
        format!(
            "sizes 2 1 2\narray 4\nsignature {} unknown SS/S\n\
             signature unknown PT/T unknown SS/S\nreturn\n",
            input
        )
    };
    for input in &["unknown PP/T", "unknown PT/P", "updated PT/T"] {
        fails(&asm(&format!("{}call f0\nreturn", callee(input))), 13, 42, 3);
    }
    for input in &["unknown PT/T", "unknown SS/S"] {
        let table = asm(&format!("{}call f0\nreturn", callee(input)));
        assert!(verdict(&table).starts_with("accepted"));
    }
    let table = asm(&format!("{}init\ncall f0\nreturn", callee("updated PP/T")));
    assert!(verdict(&table).starts_with("accepted"));
    // A STORE FIXED or LOAD FIXED before the CALL raises what the callee takes.
    let head = "sizes 2 2 2\narray 4\narray 4\nsignature unknown PT/PT unknown SS/SS\n\
                signature unknown PT/PT unknown SS/SS\nreturn\n";
    for &(code, number) in &[
        ("store a0[0] r1", 13),
        ("load r0 a1[0]", 13),
        ("store a0[0] r0", 0),
        ("store a1[0] r1", 0),
        ("load r0 a0[0]", 0),
        ("load r1 a1[0]", 0),
    ] {
        let table = asm(&format!("{}{}\ncall f0\nreturn", head, code));
        match number {
            0 => assert!(verdict(&table).starts_with("accepted"), "{}", code),
            _ => fails(&table, number, 50, 3),
        }
    }
    // "Caller's own levels put back after CALL" would pass here.
    let table = asm(&format!("{}call f0\nload r1 a0[r0]\nreturn", callee("unknown PT/T")));
    fails(&table, 10, 45, 4);
}

#[test]
fn fault_14() {
    for out in &["unknown PP/T", "unknown PT/P", "updated PT/T"] {
        let text = format!("sizes 2 1 1\narray 4\nsignature unknown PT/T {}\nreturn", out);
        fails(&asm(&text), 14, 24, 1);
    }
    // Functions are typed in table order.
    let two = "sizes 1 1 2\narray 1\nsignature unknown T/P unknown P/P\n\
               signature unknown T/P unknown P/P\nreturn\nload r0 a0[r0]\nreturn";
    fails(&asm(two), 14, 41, 1);
    // "A STORE that raises only the array it names" would pass here.
    let store = "sizes 2 2 1\narray 1\narray 1\nsignature unknown PS/PP unknown PS/SP\n\
                 store a0[r0] r1\nreturn";
    fails(&asm(store), 14, 31, 1);
    // STORE FIXED "raises only the named array".
    let fixed = store.replace("a0[r0]", "a0[0]");
    assert_eq!(verdict(&asm(&fixed)), "accepted 1 functions 33 bytes");
    fails(&asm(&fixed.replace("PS/SP", "PS/TP")), 14, 32, 1);
    fails(&asm(&fixed.replace("PS/SP", "PS/PS")), 14, 32, 1);
}

#[test]
fn fault_15() {
    let table = table_b();
    for &(registers, memory) in &[(1, 4), (3, 4), (0, 4), (2, 3), (2, 5), (2, 0), (4, 2)] {
        // Before 16.
        for directives in &["60 60", "FF"] {
            let ran = ran(&table, &vec![1; registers], &vec![1; memory], directives, 3);
            assert_eq!(ran.outcome, refused(15, 0));
            assert_eq!(ran.registers, vec![1; registers]);
            assert_eq!(ran.memory, vec![1; memory]);
            assert_eq!(ran.observations, [0xee; 3]);
            let part = message::of_outcome(&ran.outcome, &table, &hex(directives));
            assert_eq!(part, Part::NONE);
        }
    }
    // A table that does not type may run.
    let ran = ran(&table_a(), &[0, 1], &[3, 2, 9, 7], "60 60", 12);
    assert_eq!(ran.outcome, common::stopped(21, 32, 2, false, false));
}

fn bad_list(list: &[u8], place: usize, shown: (Slice, usize, usize)) {
    let table = table_b();
    let mut registers = [0, 1];
    let mut memory = [3, 2, 9, 7];
    let mut observations = [0xee; 20];
    let outcome = run(&table, &mut registers, &mut memory, list, &mut observations);
    assert_eq!(outcome, Outcome::Refused { number: 16, place });
    assert_eq!((registers, memory, observations), ([0, 1], [3, 2, 9, 7], [0xee; 20]));
    let part = message::of_outcome(&outcome, &table, list);
    assert_eq!((part.slice, part.offset, part.length), shown);
    part.of(&table, list);
}

#[test]
fn fault_16() {
    // Over-long first, whatever is in it.
    bad_list(&[0x60; 16_385], 0, (Slice::Table, 0, 0));
    bad_list(&[0xff; 16_385], 0, (Slice::Table, 0, 0));
    bad_list(&[0xff; 16_384], 0, (Slice::Directives, 0, 1));
    // Unknown kinds, the first of them.
    for kind in 0..=0xff {
        if !matches!(kind, 0x60..=0x63) {
            bad_list(&[0x60, kind, 0xff, 0x60], 1, (Slice::Directives, 1, 1));
        }
    }
    // Cut short.
    for &(list, place) in &[
        ("61", 0),
        ("60 62", 1),
        ("60 62 00", 1),
        ("61 01 62 00 00", 2),
        ("63", 0),
        ("63 00", 0),
        ("62 60 60 60 63 61", 4),
    ] {
        let list = hex(list);
        bad_list(&list, place, (Slice::Directives, place, list.len() - place));
    }
    // A branch byte over 1.
    for byte in 2..=0xff {
        bad_list(&[0x60, 0x60, 0x61, byte, 0xff], 2, (Slice::Directives, 2, 2));
    }
    // The longest list runs.
    let mut longest = [0x60; 16_384];
    let mut observations = [0; 14];
    let mut run_b =
        |list: &[u8]| run(&table_b(), &mut [0, 1], &mut [3, 2, 9, 7], list, &mut observations);
    assert_eq!(run_b(&longest), common::stopped(21, 36, 4, false, false));
    // All directives are read, not only those that are used.
    longest[16_383] = 0x61;
    assert_eq!(run_b(&longest), refused(16, 16_383));
}

#[test]
fn passes_and_stops_show_nothing() {
    let table = table_b();
    assert_eq!(message::of_verdict(&check(&table), &table), Part::NONE);
    for number in 20..=26 {
        let outcome = common::stopped(number, 36, 4, false, false);
        assert_eq!(message::of_outcome(&outcome, &table, &[0x60]), Part::NONE);
    }
}
