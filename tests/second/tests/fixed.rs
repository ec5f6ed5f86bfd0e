//! 02, order 1, "access at a fixed place": a hash whose round constants are at
//! indices written in the code, and what "a STORE that raises only the array it
//! names" lets out now that LOAD FIXED gives an array's own level. The texts and
//! tables are in `tests/examples`.

mod common;

use common::{asm, hex, naive, ran, stopped, verdict, Ran};
use second::gen::{self, Rng, Rules};
use second::message;
use second::pairs::pair;
use second::table::{self, Instr};
use second::{check, Fault, Verdict};

const HASH_LOAD: &str = include_str!("../../examples/hash-load.txt");
const HASH_FIXED: &str = include_str!("../../examples/hash-fixed.txt");
const STORE_LEAK: &str = include_str!("../../examples/store-leak.txt");

/// Refused so by all three checkers; the message shows these bytes.
fn refused(table: &[u8], number: u8, place: usize, shown: &str) {
    assert_eq!(verdict(table), format!("refused {} at {}", number, place));
    assert_eq!(naive::check(table), Err((number, place)));
    assert_eq!(gen::check_by(Rules::Right, table), Err(Fault { number, place }));
    let part = message::of_verdict(&check(table), table);
    assert_eq!(part.of(table, &[]), &hex(shown)[..]);
}

/// Accepted by all three.
fn accepted(table: &[u8]) {
    assert_eq!(check(table), Verdict::Accepted { functions: 1, bytes: table.len() });
    assert_eq!(naive::check(table), Ok(1));
    assert_eq!(gen::check_by(Rules::Right, table), Ok(1));
}

// The hash.

const SCHEDULE: [u32; 4] = [2, 0, 3, 1];
const CONSTANTS: [u32; 4] = [0x428a_2f98, 0x7137_4491, 0xb5c0_fbcf, 0xe9b5_dba5];

fn digest(message: [u32; 4]) -> u32 {
    let mut state = 0x6a09_e667_u32;
    for (&of, &constant) in SCHEDULE.iter().zip(&CONSTANTS) {
        let word = message[of as usize];
        state = (state ^ word).wrapping_mul(constant).wrapping_add(word);
    }
    state
}

/// A run over plain directives, more than are needed.
fn hashed(table: &[u8], message: [u32; 4]) -> Ran {
    let memory = [&SCHEDULE[..], &CONSTANTS, &message, &[0]].concat();
    ran(table, &[9, 9, 9, 9], &memory, &"60 ".repeat(50), 200)
}

/// No record of these tables is an INIT, UPDATE or PROTECT.
fn unprotected(bytes: &[u8]) {
    let table = table::read(bytes).expect("reads");
    for (_, instr) in table.instrs() {
        let protection =
            matches!(instr, Instr::Init | Instr::Update { .. } | Instr::Protect { .. });
        assert!(!protection, "{:?}", instr);
    }
}

#[test]
fn a_hash_with_loads_is_refused() {
    let table = asm(HASH_LOAD);
    unprotected(&table);
    // load r2 a2[r1], in round 0: the schedule's word in r1 is transient.
    refused(&table, 10, 49, "13 02 02 01");
    assert_eq!(table.len(), 206);
}

#[test]
fn a_hash_with_fixed_loads_passes() {
    let table = asm(HASH_FIXED);
    unprotected(&table);
    assert_eq!(verdict(&table), "accepted 1 functions 166 bytes");
    accepted(&table);
    // What the constants gave is public at the end; the arrays no longer are,
    // since the STORE of the digest may stray. No more than that can be said.
    for out in &["PPSP/TTSS", "SPPP/TTSS", "SPSP/PTSS", "SPSP/TPSS", "SPSP/TTTS", "SPSP/TTST"] {
        refused(&asm(&HASH_FIXED.replace("SPSP/TTSS", out)), 14, 165, "25");
    }
    // A schedule that is not public does not pass.
    refused(&asm(&HASH_FIXED.replace("PPPP/PPSS", "PPPP/TPSS")), 10, 44, "13 02 02 01");
}

/// Both the schedule's words and the constants must be loaded so.
#[test]
fn with_one_of_the_two_by_load_it_is_refused() {
    let by_load = |array: u8, register: u8| {
        let mut text = HASH_FIXED.to_string();
        for round in 0..4 {
            let fixed = format!("load r{} a{}[{}]", register, array, round);
            let load = format!("const r{0} {1}\nload r{0} a{2}[r{0}]", register, round, array);
            assert_eq!(text.matches(&fixed).count(), 1);
            text = text.replace(&fixed, &load);
        }
        asm(&text)
    };
    refused(&by_load(0, 1), 10, 49, "13 02 02 01");
    let constants = by_load(1, 3);
    refused(&constants, 14, constants.len() - 1, "25");
}

#[test]
fn with_a_fixed_store_too_the_public_arrays_stay_public() {
    let with_out = |out: &str| {
        let store = HASH_FIXED.replace("const r1 0\nstore a3[r1] r0", "store a3[0] r0");
        asm(&store.replace("SPSP/TTSS", out))
    };
    accepted(&with_out("SPSP/PPSS"));
    for out in &["PPSP/PPSS", "SPPP/PPSS", "SPSP/PPTS", "SPSP/PPST"] {
        refused(&with_out(out), 14, 160, "25");
    }
    let message = [1, 2, 0xffff_ffff, 0x1234_5678];
    assert_eq!(hashed(&with_out("SPSP/PPSS"), message).memory[12], digest(message));
}

#[test]
fn the_hash_runs() {
    let (fixed, load) = (asm(HASH_FIXED), asm(HASH_LOAD));
    let message = [1, 2, 0xffff_ffff, 0x1234_5678];
    let one = hashed(&fixed, message);
    assert_eq!(one.outcome, stopped(21, 165, 27, false, false));
    assert_eq!(one.memory[12], digest(message));
    assert_eq!(digest(message), 2_788_789_681);
    assert_eq!(one.registers, [digest(message), 0, 2, CONSTANTS[3]]);
    // CONST, four times three accesses and three OPs, CONST and STORE.
    let mut seen = vec![0x70];
    for (round, &of) in (0..).zip(&SCHEDULE) {
        seen.extend_from_slice(&[0x72, 0, round, 0, 0, 0, 0x72, 2, of as u8, 0, 0, 0]);
        seen.extend_from_slice(&[0x72, 1, round, 0, 0, 0, 0x70, 0x70, 0x70]);
    }
    seen.extend_from_slice(&[0x70, 0x72, 3, 0, 0, 0, 0]);
    assert_eq!(one.observations[..seen.len()], seen[..]);
    assert_eq!(one.observations[seen.len()..], vec![0xee; 200 - seen.len()]);

    // Another message: another digest, the same observations.
    let other = hashed(&fixed, [8, 7, 6, 5]);
    assert_eq!(other.memory[12], digest([8, 7, 6, 5]));
    assert_ne!(other.memory[12], one.memory[12]);
    assert_eq!((other.outcome, other.observations), (one.outcome, one.observations));

    // The refused one may be run too, and computes the same.
    let refused = hashed(&load, message);
    assert_eq!(refused.outcome, stopped(21, 205, 35, false, false));
    assert_eq!(refused.memory[12], digest(message));
}

// The leak.

/// The way that leads wrongly into the second block; STORE astray to a1[0]; LOAD
/// FIXED; LOAD astray; ENDIF.
const LEAK: &str = "61 00  62 01 00 00  60  62 00 00 00  60";

fn leaked(table: &[u8], secret: u32) -> Ran {
    ran(table, &[1, secret], &[0, 0], LEAK, 21)
}

#[test]
fn a_store_that_raises_only_its_array_is_observed() {
    let table = asm(STORE_LEAK);
    assert_eq!(table.len(), 49);
    // The right rules make a1 transient at the STORE, LOAD FIXED gives transient,
    // and the last LOAD's index is not public.
    refused(&table, 10, 43, "13 00 00 00");
    // By the wrong rule it passes; so it does by one that calls what LOAD FIXED
    // gives public. By the others it is refused alike.
    for &rules in &Rules::WRONG {
        let expected = match rules {
            Rules::StoreNamed | Rules::FixedPublic => Ok(1),
            _ => Err(Fault { number: 10, place: 43 }),
        };
        assert_eq!(gen::check_by(rules, &table), expected, "{:?}", rules);
    }

    // Two starts that differ in the secret r1 alone, one list of directives.
    let (five, six) = (leaked(&table, 5), leaked(&table, 6));
    println!("directives   {}", LEAK);
    println!("secret is 5: {:02x?}", five.observations);
    println!("secret is 6: {:02x?}", six.observations);
    assert_eq!(five.outcome, stopped(21, 48, 5, true, false));
    assert_eq!(six.outcome, five.outcome);
    let before = "71 01  72 00 01 00 00 00  72 01 00 00 00 00";
    assert_eq!(five.observations, hex(&format!("{} 72 00 05 00 00 00 70", before)));
    assert_eq!(six.observations, hex(&format!("{} 72 00 06 00 00 00 70", before)));
    assert_ne!(five.observations, six.observations);

    // On the right path nothing shows.
    let right = |secret| ran(&table, &[0, secret], &[0, 0], "61 00 60 60 60 60", 21);
    assert_eq!(right(5).outcome, stopped(21, 48, 5, false, false));
    assert_eq!(right(5).observations, right(6).observations);

    // The comparison of runs finds it by itself.
    let mut rng = Rng::new(1);
    assert!((0..500).any(|_| !pair(&table, &mut rng).alike));
}

/// Before LOAD FIXED the wrong rule was harmless here: LOAD gives transient of a
/// public array.
#[test]
fn without_load_fixed_the_index_is_refused_by_the_wrong_rule_too() {
    let text = STORE_LEAK.replace("load r0 a1[0]", "const r0 0\nload r0 a1[r0]");
    refused(&asm(&text), 10, 48, "13 00 00 00");
    let by_wrong = gen::check_by(Rules::StoreNamed, &asm(&text));
    assert_eq!(by_wrong, Err(Fault { number: 10, place: 48 }));
}

/// With a STORE FIXED, which cannot stray, a1 stays public, and nothing is seen.
#[test]
fn with_store_fixed_it_passes_and_shows_nothing() {
    let table = asm(&STORE_LEAK.replace("store a0[r0] r1", "store a0[0] r1"));
    accepted(&table);
    let ran = leaked(&table, 5);
    assert_eq!(ran.outcome, stopped(22, 34, 1, true, false));
    let mut rng = Rng::new(1);
    assert!((0..500).all(|_| {
        let pair = pair(&table, &mut rng);
        pair.alike && pair.kept
    }));
}
