//! Tables of a wanted size and shape, written as text, and runs of them.

use likunjavo_text::assemble;
use second::gen::{self, Rng, Rules, RunCase, Shape};
use second::machine::{kind, Directive, MAX_DIRECTIVES};
use second::{check, Verdict};

/// The shape of generated tables that come to nearly so many bytes. Past fifteen sixteenths only what must be written
/// is, which is less than the rest of a table of 32,768 bytes.
pub fn shape_of(bytes: usize) -> Shape {
    let functions = (bytes / 512).clamp(2, 32);
    Shape {
        functions: (functions.min(4), functions),
        phrases: (8 + bytes / 128, 24 + bytes / 32),
        bytes: bytes * 15 / 16,
    }
}

/// Generated tables that pass, of nine tenths of so many bytes up to all of them. They are written by the rules
/// before order 3, whose tables still pass: so the figures of the benchmark can be compared over that order.
pub fn generated(bytes: usize, count: usize, rng: &mut Rng) -> Vec<Vec<u8>> {
    let mut tables = Vec::new();
    while tables.len() < count {
        let table = gen::of_shape_by(Rules::InitKeepsArrays, shape_of(bytes), rng);
        if (bytes * 9 / 10..=bytes).contains(&table.len()) {
            tables.push(table);
        }
    }
    tables
}

/// Assembles a text that must make a table that passes.
fn passing(text: &str) -> Vec<u8> {
    let table = assemble(text).expect("the text assembles");
    assert!(matches!(check(&table), Verdict::Accepted { .. }), "{:?}", check(&table));
    table
}

/// Repeats `phrase` between `before` and `after` as often as it fits into so many bytes.
fn filled(before: &str, phrase: &str, after: &str, bytes: usize) -> Vec<u8> {
    let length = |times: usize| {
        assemble(&[before, &phrase.repeat(times), after].concat()).map_or(0, |table| table.len())
    };
    let each = length(2) - length(1);
    let times = 1 + (bytes - length(1)) / each;
    passing(&[before, &phrase.repeat(times), after].concat())
}

/// Straight code: CONST, OP, SELECT, LOAD, STORE and PROTECT over and over, after an INIT.
pub fn straight(bytes: usize) -> Vec<u8> {
    filled(
        "sizes 8 2 1\narray 16\narray 16\nsignature unknown PPPPPPPP/TS unknown SSSSSSSS/SS\ninit\n",
        "const r0 3\nload r1 a0[r0]\nprotect r2 r1\nadd r3 r2 r0\nselect r4 r3 r2 r1\nstore a1[r0] r4\nxor r5 r4 r3\n",
        "return\n",
        bytes,
    )
}

/// Fixed accesses and nothing else.
pub fn fixed(bytes: usize) -> Vec<u8> {
    filled(
        "sizes 2 2 1\narray 16\narray 16\nsignature unknown PP/PP unknown SS/SS\n",
        "load r0 a0[3]\nstore a1[15] r0\n",
        "return\n",
        bytes,
    )
}

/// Blocks inside blocks, sixteen deep, over and over, in the last of 32 functions: nothing goes deeper.
pub fn nested(bytes: usize) -> Vec<u8> {
    let mut phrase = String::new();
    for level in 0..16 {
        phrase.push_str(if level % 4 == 3 { "while r0 unknown PPPP/SS\n" } else { "if r0\n" });
    }
    phrase.push_str("load r1 a0[r2]\nconst r1 0\n");
    for level in (0..16).rev() {
        phrase.push_str(if level % 4 == 3 { "endwhile\n" } else { "else\nendif\n" });
    }
    let signatures = "signature unknown PPPP/SS unknown SSSS/SS\n".repeat(32);
    let others = "return\n".repeat(31);
    filled(
        &format!("sizes 4 2 32\narray 16\narray 16\n{}{}", signatures, others),
        &phrase,
        "return\n",
        bytes,
    )
}

/// 32 functions, each of which is nothing but calls of the one before it; the first counts.
pub fn calling(bytes: usize) -> Vec<u8> {
    let calls = (bytes - 700) / 31 / 3;
    let mut text = "sizes 2 0 32\n".to_string();
    text.push_str(&"signature unknown PP/ unknown PP/\n".repeat(32));
    text.push_str("add r1 r1 r1\nreturn\n");
    for function in 1..32 {
        text.push_str(&format!("call f{} marked\n", function - 1).repeat(calls));
        text.push_str("return\n");
    }
    passing(&text)
}

/// A run of this table from zeros, with room for every observation.
fn run_with(table: Vec<u8>, directives: Vec<u8>) -> RunCase {
    let read = second::table::read(&table).expect("the table reads");
    let (registers, memory) = (vec![0; read.registers()], vec![0; read.memory()]);
    let observations = vec![0; 6 * directives.len()];
    RunCase { registers, memory, observations, directives, table }
}

/// A beginning, then the directives of a turn over and over, up to the last that a list can hold.
fn list_of(beginning: &[u8], turn: &[u8]) -> Vec<u8> {
    let mut list = beginning.to_vec();
    let mut at = 0;
    loop {
        let (_, length) = Directive::decode(&turn[at..]).expect("a turn is whole directives");
        if list.len() + length > MAX_DIRECTIVES {
            return list;
        }
        list.extend_from_slice(&turn[at..at + length]);
        at = (at + length) % turn.len();
    }
}

/// A short loop, for as long as a list can be.
pub fn long_loop() -> RunCase {
    let table = passing(
        "sizes 3 1 1\narray 16\nsignature unknown PPP/P unknown SSS/S\nconst r2 15\nwhile r2 unknown PPP/P\n\
         and r0 r1 r2\nload r0 a0[r0]\nconst r0 1\nadd r1 r1 r0\nendwhile\nreturn\n",
    );
    let turn = [kind::BRANCH, 1, 0x60, 0x60, 0x60, 0x60, 0x60];
    run_with(table, list_of(&[kind::PLAIN], &turn))
}

/// The same with eight arrays: each turn loads from and stores into the last ones.
pub fn many_accesses() -> RunCase {
    let arrays = "array 16\n".repeat(8);
    let table = passing(&format!(
        "sizes 3 8 1\n{}signature unknown PPP/SSSSSSSS unknown SSS/SSSSSSSS\n\
         const r2 15\nwhile r2 unknown PSP/SSSSSSSS\n\
         load r1 a7[r0]\nstore a6[r0] r1\nload r1 a5[r0]\nstore a7[r0] r1\nendwhile\nreturn\n",
        arrays
    ));
    let turn = [kind::BRANCH, 1, 0x60, 0x60, 0x60, 0x60, 0x60];
    run_with(table, list_of(&[kind::PLAIN], &turn))
}

/// The same accesses at fixed places.
pub fn fixed_accesses() -> RunCase {
    let arrays = "array 16\n".repeat(8);
    let table = passing(&format!(
        "sizes 3 8 1\n{}signature unknown PPP/SSSSSSSS unknown SSS/SSSSSSSS\n\
         const r2 15\nwhile r2 unknown PSP/SSSSSSSS\n\
         load r1 a7[0]\nstore a6[0] r1\nload r1 a5[0]\nstore a7[0] r1\nendwhile\nreturn\n",
        arrays
    ));
    let turn = [kind::BRANCH, 1, 0x60, 0x60, 0x60, 0x60, 0x60];
    run_with(table, list_of(&[kind::PLAIN], &turn))
}

/// A loop that is entered wrongly, and then loads and stores past the array's end in each turn.
pub fn stray_accesses() -> RunCase {
    let arrays = "array 16\n".repeat(8);
    let table = passing(&format!(
        "sizes 3 8 1\n{}signature unknown PPP/SSSSSSSS unknown SSS/SSSSSSSS\n\
         const r0 99\nwhile r2 unknown PSP/SSSSSSSS\n\
         load r1 a0[r0]\nstore a1[r0] r1\nendwhile\nreturn\n",
        arrays
    ));
    let stray = [kind::STRAY, 7, 3, 0];
    let turn = [&[kind::BRANCH, 1][..], &stray, &stray, &[kind::PLAIN]].concat();
    run_with(table, list_of(&[kind::PLAIN], &turn))
}

/// A loop at the end of a table of so many bytes that calls twice, and each turn comes back from the first call to
/// the place after the second.
pub fn wrong_returns(bytes: usize) -> RunCase {
    let signatures = "signature unknown P/ unknown P/\n".repeat(3);
    let table = filled(
        &format!("sizes 1 0 3\n{}return\n", signatures),
        "const r0 1\n",
        "return\nconst r0 1\nwhile r0 unknown P/\ncall f0\ncall f0\nendwhile\nreturn\n",
        bytes,
    );
    // Only ENDWHILE and RETURN, four bytes, stand after it.
    let after_second_call = table.len() - 4;
    let [low, high] = (after_second_call as u16).to_le_bytes();
    let turn = [kind::BRANCH, 1, kind::PLAIN, kind::RETURN, low, high, kind::PLAIN];
    run_with(table, list_of(&[kind::PLAIN], &turn))
}
