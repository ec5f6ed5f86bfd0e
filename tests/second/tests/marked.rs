//! "Marked cases (to be proved), and others", with 01's numbers and words.

mod common;

use common::{asm, ran, stopped, table_a, table_b, verdict};
use second::table::Instr;
use second::typing::{Env, Status, PUBLIC, SECRET, TRANSIENT};

#[test]
fn case_01_table_a() {
    assert_eq!(table_a().len(), 33);
    assert_eq!(verdict(&table_a()), "refused 10 at 28");
}

#[test]
fn case_02_table_b() {
    assert_eq!(table_b().len(), 37);
    assert_eq!(verdict(&table_b()), "accepted 1 functions 37 bytes");
}

#[test]
fn case_03_empty_table() {
    assert_eq!(verdict(&[]), "refused 2 at 0");
}

const CASE_4: [u8; 14] =
    [0x70, 0x72, 0x00, 0x01, 0x00, 0x00, 0x00, 0x70, 0x72, 0x00, 0x02, 0x00, 0x00, 0x00];

#[test]
fn case_04_run_of_b() {
    let ran = ran(&table_b(), &[0, 1], &[3, 2, 9, 7], "60 60 60 60", 14);
    assert_eq!(ran.outcome, stopped(21, 36, 4, false, false));
    assert_eq!(ran.registers, [2, 9]);
    assert_eq!(ran.memory, [3, 2, 9, 7]);
    assert_eq!(ran.observations, CASE_4);
}

fn after(mut env: Env, instr: Instr, arrays: usize) -> Env {
    env.simple(&instr, arrays).expect("the rule's demands are met");
    env
}

#[test]
fn case_05_protect_of_a_transient() {
    let env = Env::new(Status::Updated, &[SECRET, TRANSIENT], &[]);
    let env = after(env, Instr::Protect { dest: 0, source: 1 }, 0);
    assert_eq!(env, Env::new(Status::Updated, &[PUBLIC, TRANSIENT], &[]));
}

#[test]
fn case_06_protect_of_a_secret() {
    let env = Env::new(Status::Updated, &[PUBLIC, SECRET], &[]);
    let env = after(env, Instr::Protect { dest: 0, source: 1 }, 0);
    assert_eq!(env, Env::new(Status::Updated, &[SECRET, SECRET], &[]));
}

const STORE: Instr = Instr::Store { array: 0, index: 0, source: 1 };

#[test]
fn case_07_store_of_a_transient() {
    let env = Env::new(Status::Unknown, &[PUBLIC, TRANSIENT], &[PUBLIC, PUBLIC]);
    let env = after(env, STORE, 2);
    let both = Env::new(Status::Unknown, &[PUBLIC, TRANSIENT], &[TRANSIENT, TRANSIENT]);
    assert_eq!(env, both);
}

#[test]
fn case_08_store_of_a_public() {
    for &level in &[PUBLIC, TRANSIENT, SECRET] {
        let env = Env::new(Status::Updated, &[PUBLIC, PUBLIC], &[level, PUBLIC]);
        assert_eq!(after(env, STORE, 2), env);
    }
}

// 02, order 1.

const STATUSES: [Status; 4] = [
    Status::Unknown,
    Status::Updated,
    Status::Outdated { register: 0, sense: 1 },
    Status::Outdated { register: 1, sense: 0 },
];

/// "LOAD FIXED gives dest the array's own level"; LOAD gives transient of a public
/// array.
#[test]
fn load_fixed_gives_the_arrays_own_level() {
    for &status in &STATUSES {
        for &before in &[PUBLIC, TRANSIENT, SECRET] {
            for &level in &[PUBLIC, TRANSIENT, SECRET] {
                let env = Env::new(status, &[PUBLIC, before, SECRET], &[SECRET, level]);
                let fixed = Instr::LoadFixed { dest: 1, array: 1, index: 0 };
                let after_fixed = after(env, fixed, 2);
                // A write to r1 ends what is outdated by r1, and nothing else.
                let left = match status {
                    Status::Outdated { register: 1, .. } => Status::Unknown,
                    other => other,
                };
                assert_eq!(after_fixed, Env::new(left, &[PUBLIC, level, SECRET], &[SECRET, level]));
                let load = Instr::Load { dest: 1, array: 1, index: 0 };
                let raised = Env::new(left, &[PUBLIC, level.max(1), SECRET], &[SECRET, level]);
                assert_eq!(after(env, load, 2), raised);
            }
        }
    }
}

/// "STORE FIXED raises only the named array as STORE does and no other."
#[test]
fn store_fixed_raises_only_the_named_array() {
    for &status in &STATUSES {
        for &source in &[PUBLIC, TRANSIENT, SECRET] {
            for &held in &[PUBLIC, TRANSIENT, SECRET] {
                let arrays = [PUBLIC, held, TRANSIENT, SECRET, PUBLIC];
                let env = Env::new(status, &[PUBLIC, source], &arrays);
                let fixed = Instr::StoreFixed { array: 1, index: 0, source: 1 };
                let arrays = [PUBLIC, held.max(source), TRANSIENT, SECRET, PUBLIC];
                let expected = Env::new(status, &[PUBLIC, source], &arrays);
                assert_eq!(after(env, fixed, 5), expected);
                // STORE raises the named array so too, and the other public ones.
                let other = source.min(TRANSIENT);
                let arrays = [other, held.max(source), TRANSIENT, SECRET, other];
                let expected = Env::new(status, &[PUBLIC, source], &arrays);
                let store = Instr::Store { array: 1, index: 0, source: 1 };
                assert_eq!(after(env, store, 5), expected);
            }
        }
    }
}

/// Table A's second access passes where the first is at a fixed place.
#[test]
fn table_a_with_a_fixed_load() {
    let mut table = table_a();
    table.splice(24..28, [0x1b, 0x00, 0x00, 0x03, 0x00]);
    let ran = ran(&table, &[0, 1], &[3, 2, 9, 1], "60 60", 12);
    assert_eq!(ran.outcome, stopped(21, 33, 2, false, false));
    assert_eq!(ran.registers, [1, 2]);
    assert_eq!(ran.observations, [0x72, 0, 3, 0, 0, 0, 0x72, 0, 1, 0, 0, 0]);
    table[27] = 4;
}

#[test]
fn case_09_join_of_statuses() {
    let outdated = Status::Outdated { register: 0, sense: 1 };
    let one = Env::new(Status::Updated, &[PUBLIC], &[]);
    let two = Env::new(outdated, &[PUBLIC], &[]);
    assert_eq!(one.join(&two).status(), Status::Unknown);
    assert_eq!(two.join(&one).status(), Status::Unknown);
    assert_eq!(two.join(&two).status(), outdated);
    assert_eq!(one.join(&one).status(), Status::Updated);
}

#[test]
fn case_10_update_under_the_other_sense() {
    let status = Status::Outdated { register: 0, sense: 0 };
    let mut env = Env::new(status, &[PUBLIC], &[]);
    let before = env;
    let update = Instr::Update { register: 0, sense: 1 };
    assert_eq!(env.simple(&update, 0), Err(11));
    assert_eq!(env, before);

    // In a table: the second block of an IF on r0.
    let table = asm("sizes 1 0 1
                     signature unknown P/ unknown P/
                     init
                     if r0
                     else
                       update r0 nonzero
                     endif
                     return");
    assert_eq!(verdict(&table), "refused 11 at 29");
}

#[test]
fn case_11_marked_call_of_an_unknown_out() {
    let input = Env::new(Status::Unknown, &[PUBLIC], &[]);
    let output = Env::new(Status::Unknown, &[SECRET], &[]);
    let env = Env::new(Status::Updated, &[PUBLIC], &[]);
    let after = env.call(&input, &output, 1).expect("within");
    assert_eq!(after, Env::new(Status::Unknown, &[SECRET], &[]));

    // The three others.
    let updated = Env::new(Status::Updated, &[SECRET], &[]);
    assert_eq!(env.call(&input, &output, 0), Ok(output));
    assert_eq!(env.call(&input, &updated, 1), Ok(updated));
    assert_eq!(env.call(&input, &updated, 0), Ok(output));
}

#[test]
fn case_12_if_on_zero_led_into_the_first_block() {
    let table = asm("sizes 1 0 1
                     signature unknown P/ unknown P/
                     if r0
                     else
                     endif
                     return");
    let ran = ran(&table, &[0], &[], "61 01", 2);
    assert_eq!(ran.observations, [0x71, 0x00]);
    // It stands at the ELSE, with the directives used up.
    assert_eq!(ran.outcome, stopped(20, 25, 1, true, false));
}

// "Run only"

#[test]
fn length_32768_reads_and_32769_gives_1() {
    let table = second::gen::padded(table_b(), 32_768);
    assert_eq!(table.len(), 32_768);
    assert_eq!(verdict(&table), "accepted 1 functions 32768 bytes");
    let table = second::gen::padded(table_b(), 32_769);
    assert_eq!(table.len(), 32_769);
    assert_eq!(verdict(&table), "refused 1 at 0");
}

fn nested(deep: usize, open: &str, close: &str) -> Vec<u8> {
    let text = format!(
        "sizes 1 0 1\nsignature unknown P/ unknown P/\n{}{}return\n",
        open.repeat(deep),
        close.repeat(deep)
    );
    asm(&text)
}

#[test]
fn nesting_16_and_17() {
    let forms = [
        ("if r0\n", "else\nendif\n", 4),
        ("if r0\nelse\n", "endif\n", 7),
        ("while r0 unknown P/\n", "endwhile\n", 11),
    ];
    for &(open, close, length) in &forms {
        let table = nested(16, open, close);
        let line = format!("accepted 1 functions {} bytes", table.len());
        assert_eq!(verdict(&table), line);
        let table = nested(17, open, close);
        assert_eq!(verdict(&table), format!("refused 6 at {}", 21 + 16 * length));
    }
    // Blocks one after another are not nested.
    let twenty = "if r0\nelse\nendif\n".repeat(20);
    assert!(verdict(&nested(1, &twenty, "")).starts_with("accepted"));
}

#[test]
fn index_3_and_4_in_an_array_of_4() {
    let table = asm("sizes 2 1 1
                     array 4
                     signature unknown PP/P unknown TP/P
                     load r0 a0[r1]
                     return");
    let three = ran(&table, &[0, 3], &[3, 2, 9, 7], "60", 6);
    assert_eq!(three.outcome, stopped(21, 28, 1, false, false));
    assert_eq!(three.registers, [7, 3]);
    assert_eq!(three.observations, [0x72, 0, 3, 0, 0, 0]);
    let four = ran(&table, &[0, 4], &[3, 2, 9, 7], "60", 6);
    assert_eq!(four.outcome, stopped(24, 24, 0, false, false));
    assert_eq!(four.registers, [0, 4]);
    assert_eq!(four.observations, [0xee; 6]);
}

#[test]
fn observation_room_14_and_13() {
    let enough = ran(&table_b(), &[0, 1], &[3, 2, 9, 7], "60 60 60 60", 14);
    assert_eq!(enough.outcome, stopped(21, 36, 4, false, false));
    let short = ran(&table_b(), &[0, 1], &[3, 2, 9, 7], "60 60 60 60", 13);
    assert_eq!(short.outcome, stopped(26, 32, 3, false, false));
    assert_eq!(short.registers, [2, 1]);
    assert_eq!(short.observations[..8], CASE_4[..8]);
    assert_eq!(short.observations[8..], [0xee; 5]);
}
