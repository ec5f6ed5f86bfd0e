//! 02, order 3, "INIT settles arrays too": what passes only since then, what stays
//! refused, and that "Tables that passed before still pass".

mod common;

use common::{asm, hex, naive, ran, stopped, verdict};
use second::gen::{self, Rng, Rules};
use second::pairs::pair;
use second::table::{self, Instr};
use second::typing::{Env, Status, PUBLIC, SECRET, TRANSIENT};
use second::{check, Fault, Verdict};

/// Accepted by all three checkers.
fn accepted(text: &str) {
    let table = asm(text);
    let functions = usize::from(table[3]);
    assert_eq!(check(&table), Verdict::Accepted { functions, bytes: table.len() }, "{}", text);
    assert_eq!(naive::check(&table), Ok(functions));
    assert_eq!(gen::check_by(Rules::Right, &table), Ok(functions));
}

/// Refused so by all three.
fn refused(text: &str, number: u8, place: usize) {
    let table = asm(text);
    assert_eq!(verdict(&table), format!("refused {} at {}", number, place), "{}", text);
    assert_eq!(naive::check(&table), Err((number, place)));
    assert_eq!(gen::check_by(Rules::Right, &table), Err(Fault { number, place }));
}

/// What the rules before order 3 say.
fn before(text: &str) -> Result<usize, Fault> {
    gen::check_by(Rules::InitKeepsArrays, &asm(text))
}

/// Accepted; but before order 3 refused with the number at `place`, and with its
/// INITs left out still refused with it at `without`.
fn accepted_since(text: &str, number: u8, place: usize, without: usize) {
    accepted(text);
    assert_eq!(before(text), Err(Fault { number, place }), "{}", text);
    refused(&text.replace("init\n", ""), number, without);
}

const GAUGE_PROTECT: &str = include_str!("../../examples/gauge-protect.txt");
const GAUGE_INIT: &str = include_str!("../../examples/gauge-init.txt");

/// "our writers add PROTECTs that do nothing": what they had to write, and the same without.
#[test]
fn a_gauge_without_its_protects() {
    accepted(GAUGE_PROTECT);
    assert_eq!(before(GAUGE_PROTECT), Ok(1));
    accepted(GAUGE_INIT);
    assert_eq!(before(GAUGE_INIT), Err(Fault { number: 10, place: 42 }));
    assert_eq!(asm(&GAUGE_PROTECT.replace("protect r0 r0\n", "")), asm(GAUGE_INIT));
}

/// A function from 27 on, with 3 registers and two arrays of 4 words, given their
/// levels on the way in.
fn function(levels: &str, code: &str) -> String {
    let head = format!("sizes 3 2 1\narray 4\narray 4\nsignature unknown {}", levels);
    format!("{} unknown SSS/SS\n{}return", head, code)
}

const INDEX: &str = "init\nload r0 a0[1]\nload r1 a1[r0]\n";

#[test]
fn what_a_settled_array_holds_is_an_index_or_a_guard() {
    accepted_since(&function("PPP/TT", INDEX), 10, 33, 32);
    assert_eq!(verdict(&asm(&function("PPP/TT", INDEX))), "accepted 1 functions 38 bytes");
    accepted_since(&function("PPP/TT", "init\nload r0 a1[3]\nstore a0[r0] r1\n"), 10, 33, 32);
    accepted_since(&function("PPP/TT", "init\nload r0 a0[1]\nif r0\nelse\nendif\n"), 10, 33, 32);
    // The INIT has to come first.
    let late = "load r0 a0[1]\nload r1 a1[r0]\ninit\n";
    refused(&function("PPP/TT", late), 10, 32);
}

#[test]
fn a_secret_array_stays_secret() {
    let text = function("PPP/ST", INDEX);
    refused(&text, 10, 33);
    refused(&function("PPP/SP", INDEX), 10, 33);
    // Secret by a STORE or STORE FIXED in the function itself.
    refused(&function("PPS/TT", &format!("store a0[r0] r2\n{}", INDEX)), 10, 37);
    refused(&function("PPS/TT", &format!("store a0[1] r2\n{}", INDEX)), 10, 38);
    // It had better be refused: the secret is observed on the right path.
    let mut rng = Rng::new(1);
    assert!((0..100).any(|_| !pair(&asm(&text), &mut rng).alike));
}

#[test]
fn a_public_array_stays_public() {
    accepted(&function("PPP/PS", INDEX));
    assert_eq!(before(&function("PPP/PS", INDEX)), Ok(1));
    accepted(&function("PPP/PP", &INDEX.replace("init\n", "")));
}

/// All slots at once: the out that says no more than this passes, and none below it.
#[test]
fn all_eight_arrays() {
    let with_out = |out: &str| {
        let arrays = "array 1\n".repeat(8);
        let head = format!("sizes 1 8 1\n{}signature unknown P/TSPTSTPT", arrays);
        format!("{} unknown P/{}\ninit\nreturn", head, out)
    };
    accepted_since(&with_out("PSPPSPPP"), 14, 46, 45);
    for out in &["PTPPSPPP", "PPPPSPPP", "PSPPTPPP", "PSPPPPPP"] {
        refused(&with_out(out), 14, 46);
    }
}

/// Slot by slot, registers and arrays alike, from each status; slots beyond the
/// table's own stay as they are, 0.
#[test]
fn init_settles_each_transient_slot() {
    let outdated = Status::Outdated { register: 1, sense: 1 };
    for &status in &[Status::Unknown, Status::Updated, outdated] {
        let mut env = Env::new(
            status,
            &[TRANSIENT, PUBLIC, SECRET, TRANSIENT],
            &[SECRET, TRANSIENT, PUBLIC, TRANSIENT],
        );
        assert_eq!(env.simple(&Instr::Init, 4), Ok(()));
        let registers = [PUBLIC, PUBLIC, SECRET, PUBLIC];
        let arrays = [SECRET, PUBLIC, PUBLIC, PUBLIC];
        assert_eq!(env, Env::new(Status::Updated, &registers, &arrays));
    }
}

#[test]
fn a_store_raises_settled_arrays_again() {
    let then = |store: &str, from: &str| {
        let code = format!("init\n{}load r0 {}[1]\nload r1 a1[r0]\n", store, from);
        function("PPS/TT", &code)
    };
    // A secret: the named array secret, the other transient.
    refused(&then("store a0[r0] r2\n", "a0"), 10, 37);
    refused(&then("store a0[r0] r2\n", "a1"), 10, 37);
    // A transient, which is what LOAD gives: both transient.
    let transient = "load r1 a0[r0]\nstore a0[r0] r1\n";
    refused(&then(transient, "a0"), 10, 41);
    refused(&then(transient, "a1"), 10, 41);
    // STORE FIXED of a secret: the named array only.
    refused(&then("store a0[1] r2\n", "a0"), 10, 38);
    accepted_since(&then("store a0[1] r2\n", "a1"), 10, 38, 37);
    // A public: neither.
    accepted_since(&then("store a0[r0] r1\n", "a0"), 10, 37, 36);
    accepted_since(&then("store a0[r0] r1\n", "a1"), 10, 37, 36);
    // Another INIT settles what the STORE made transient, and that alone.
    accepted_since(&then("store a0[r0] r2\ninit\n", "a1"), 10, 38, 36);
    refused(&then("store a0[r0] r2\ninit\n", "a0"), 10, 38);
}

/// The levels that are left, by the out that RETURN asks for.
#[test]
fn levels_after_init_and_a_store() {
    let with_out = |store: &str, out: &str| {
        let code = format!("init\n{}", store);
        function("PPS/TT", &code).replace("SSS/SS", out)
    };
    let secret = "store a0[r0] r2\n";
    accepted(&with_out(secret, "PPS/ST"));
    refused(&with_out(secret, "PPS/SP"), 14, 32);
    refused(&with_out(secret, "PPS/TT"), 14, 32);
    let transient = "load r1 a0[r0]\nstore a1[r0] r1\n";
    accepted(&with_out(transient, "PTS/TT"));
    refused(&with_out(transient, "PTS/PT"), 14, 36);
    refused(&with_out(transient, "PTS/TP"), 14, 36);
}

/// Function 0 at 41 takes the array public; the entry, at 42, has it transient.
#[test]
fn a_call_that_wants_the_array_public() {
    let text = "sizes 1 1 2
                array 4
                signature unknown P/P unknown P/P
                signature unknown P/T unknown S/S
                return
                init
                call f0
                return";
    accepted_since(text, 13, 43, 42);
    assert_eq!(verdict(&asm(text)), "accepted 2 functions 47 bytes");
    // A callee's INIT is seen by its out only.
    let callee = |out: &str| {
        format!(
            "sizes 2 1 2\narray 4\nsignature unknown PP/T unknown PP/{}\n\
             signature unknown PP/T unknown SS/S\ninit\nreturn\n\
             call f0\nload r0 a0[1]\nload r1 a0[r0]\nreturn",
            out
        )
    };
    accepted(&callee("P"));
    assert_eq!(before(&callee("P")), Err(Fault { number: 14, place: 42 }));
    refused(&callee("T"), 10, 51);
}

#[test]
fn a_return_that_says_the_array_is_public() {
    let text = "sizes 1 1 1
                array 4
                signature unknown P/T unknown P/P
                init
                return";
    accepted_since(text, 14, 25, 24);
    assert_eq!(verdict(&asm(text)), "accepted 1 functions 26 bytes");
    refused(&text.replace("P/T unknown", "P/S unknown"), 14, 25);
}

#[test]
fn a_loop_that_says_the_array_is_public() {
    let loop_of = |levels: &str| {
        function("PPP/TT", &format!("init\nwhile r0 unknown {}\nendwhile\n", levels))
    };
    accepted_since(&loop_of("PPP/PP"), 12, 28, 27);
    accepted_since(&loop_of("PPP/PT"), 12, 28, 27);
    // Now it is within L, and what comes next is looked at: 10 in place of 12.
    refused(&loop_of("TPP/PP"), 10, 28);
    assert_eq!(before(&loop_of("TPP/PP")), Err(Fault { number: 12, place: 28 }));
}

/// The body's STORE makes both arrays transient, and its INIT settles them before
/// ENDWHILE looks.
#[test]
fn a_loop_body_that_settles_its_arrays() {
    let body = "while r0 unknown PTP/PP\nstore a0[r0] r1\ninit\nendwhile\n";
    accepted_since(&function("PTP/PP", body), 12, 43, 42);
}

/// After a loop L counts, not what an INIT in the body settled.
#[test]
fn a_loop_that_says_the_array_is_transient() {
    let body = "while r2 unknown PPP/TT\ninit\nendwhile\n";
    let after = "load r0 a0[1]\nload r1 a1[r0]\n";
    refused(&function("PPP/TT", &format!("{}{}", body, after)), 10, 47);
}

#[test]
fn a_load_of_a_settled_array_is_transient() {
    let code = |protect: &str| format!("init\nload r0 a0[r0]\n{}load r1 a1[r0]\n", protect);
    refused(&function("PPP/TT", &code("")), 10, 32);
    // PROTECT, or another INIT, makes that public as before.
    accepted(&function("PPP/TT", &code("protect r0 r0\n")));
    accepted(&function("PPP/TT", &code("init\n")));
}

#[test]
fn an_init_in_one_block_settles_nothing_after_the_if() {
    let text = |first: &str, second: &str| {
        let branch = format!("if r2\n{}else\n{}endif\n", first, second);
        function("PPP/TT", &format!("{}load r0 a0[1]\nload r1 a1[r0]\n", branch))
    };
    refused(&text("init\n", ""), 10, 41);
    refused(&text("", "init\n"), 10, 41);
    accepted_since(&text("init\n", "init\n"), 10, 42, 40);
    // In the block itself it does: the index at 37 passes, that after the IF not.
    refused(&text(INDEX, ""), 10, 50);
    assert_eq!(before(&text(INDEX, "")), Err(Fault { number: 10, place: 37 }));
}

// Runs.

/// INIT is at run time what it was: it observes nothing and leaves memory alone.
#[test]
fn a_run_over_a_settled_array() {
    let table = asm(&function("PPP/TT", INDEX));
    let ran = ran(&table, &[0, 0, 0], &[1, 2, 3, 4, 5, 6, 7, 8], "60 60 60", 13);
    assert_eq!(ran.outcome, stopped(21, 37, 3, false, false));
    assert_eq!(ran.registers, [2, 7, 0]);
    assert_eq!(ran.memory, [1, 2, 3, 4, 5, 6, 7, 8]);
    assert_eq!(ran.observations, hex("70  72 00 01 00 00 00  72 01 02 00 00 00"));
}

/// Led wrongly into the second block, the STORE strays into a1 with a secret; but a
/// run that misspeculates does not get past the INIT to the word that it left there.
#[test]
fn what_a_stray_store_left_is_not_seen_past_init() {
    let text = "sizes 2 2 1
                array 1
                array 1
                signature unknown PS/SP unknown SS/SS
                if r0
                else
                  store a0[r0] r1
                  init
                  load r0 a1[0]
                  load r0 a0[r0]
                endif
                return";
    accepted_since(text, 10, 44, 43);
    let table = asm(text);
    let astray = |secret| ran(&table, &[1, secret], &[0, 0], "61 00  62 01 00 00  60", 9);
    assert_eq!(astray(5).outcome, stopped(23, 38, 2, true, false));
    assert_eq!(astray(5).memory, [0, 5]);
    assert_eq!(astray(5).observations, astray(6).observations);
    let mut rng = Rng::new(1);
    assert!((0..500).all(|_| {
        let pair = pair(&table, &mut rng);
        pair.alike && pair.kept
    }));
}

// "Tables that passed before still pass."

/// Whether the entry starts with an INIT that settles an array.
fn settles_at_once(bytes: &[u8]) -> bool {
    let table = match table::read(bytes) {
        Ok(table) => table,
        Err(_) => return false,
    };
    let input = Env::from_packed(table.input(table.entry()));
    let (first, _) = table.instr(table.start(table.entry()));
    first == Instr::Init && (0..8).any(|array| input.array(array) == TRANSIENT)
}

/// A table that is refused by reading stays so; one that passed before passes; any
/// other is refused no earlier than before, if at all.
fn no_stricter(bytes: &[u8], seed: u64) {
    match (gen::check_by(Rules::InitKeepsArrays, bytes), check(bytes)) {
        (Err(fault @ Fault { number: 1..=9, .. }), now) => {
            let same = Verdict::Refused { number: fault.number, place: fault.place };
            assert_eq!(now, same, "seed {}", seed);
        }
        (Err(fault), Verdict::Refused { number, place }) => {
            // "at WHILE 12 before 10": what is within L by now may have a guard
            // that is not public.
            let same = number == fault.number || (fault.number, number) == (12, 10);
            assert!(place > fault.place || place == fault.place && same, "seed {}", seed);
        }
        (Err(_), Verdict::Accepted { .. }) => {}
        (Ok(functions), now) => {
            let passes = Verdict::Accepted { functions, bytes: bytes.len() };
            assert_eq!(now, passes, "seed {}", seed);
        }
    }
}

#[test]
fn tables_that_passed_before_still_pass() {
    let mut passed = 0;
    let mut settling = 0;
    let mut newly = 0;
    let mut look = |table: &[u8], seed: u64| {
        no_stricter(table, seed);
        if gen::check_by(Rules::InitKeepsArrays, table).is_ok() {
            passed += 1;
            settling += u32::from(settles_at_once(table));
        } else {
            newly += u32::from(matches!(check(table), Verdict::Accepted { .. }));
        }
    };
    for seed in 0..4_000 {
        look(&gen::good(seed), seed);
        look(&gen::by_rules(Rules::InitKeepsArrays, seed), seed);
        look(&gen::altered(seed), seed);
        look(&gen::mutated(seed), seed);
        look(&gen::spoiled(10 + (seed % 5) as u8, seed).0, seed);
        look(&gen::by_rules(Rules::WRONG[seed as usize % Rules::WRONG.len()], seed), seed);
    }
    assert!(passed > 8_000, "{}", passed);
    assert!(settling > 1_000, "{}", settling);
    assert!(newly > 2_000, "{}", newly);
}
