//! What several test files use: the tables of 01, and a plain second checker.
#![allow(dead_code)]

pub mod naive;
pub mod plain_run;

use second::{run, Outcome};

/// Bytes from hexadecimal text.
pub fn hex(text: &str) -> Vec<u8> {
    text.split_whitespace()
        .filter(|word| *word != "/")
        .map(|word| u8::from_str_radix(word, 16).expect("two digits"))
        .collect()
}

/// "Table A, 33 bytes", as it stands in 01.
pub fn table_a() -> Vec<u8> {
    hex("01 02 01 01 / 02 04 00 / 03 18 00  00 00 00 00 00 00 00  00 0A 00 00 00 00 00 / \
         13 00 00 01 / 13 01 00 00 / 25")
}

/// "Table B replaces its code", 37 bytes.
pub fn table_b() -> Vec<u8> {
    let mut table = table_a();
    table.truncate(24);
    table.extend(hex("15 / 13 00 00 01 / 17 00 00 / 13 01 00 00 / 25"));
    table
}

pub fn asm(text: &str) -> Vec<u8> {
    likunjavo_text::assemble(text).expect("the text assembles")
}

/// "refused N at P", or the accepted line.
pub fn verdict(table: &[u8]) -> String {
    second::line(&second::check(table))
}

/// A run with all that it leaves.
#[derive(Debug, PartialEq)]
pub struct Ran {
    pub outcome: Outcome,
    pub registers: Vec<u32>,
    pub memory: Vec<u32>,
    pub observations: Vec<u8>,
}

/// Runs with `room` observation bytes, all 0xEE before.
pub fn ran(table: &[u8], registers: &[u32], memory: &[u32], directives: &str, room: usize) -> Ran {
    let mut registers = registers.to_vec();
    let mut memory = memory.to_vec();
    let mut observations = vec![0xee; room];
    let outcome = run(table, &mut registers, &mut memory, &hex(directives), &mut observations);
    Ran { outcome, registers, memory, observations }
}

pub fn stopped(
    number: u8,
    place: usize,
    steps: usize,
    misspeculating: bool,
    masked: bool,
) -> Outcome {
    Outcome::Stopped { number, place, steps, misspeculating, masked }
}

pub fn refused(number: u8, place: usize) -> Outcome {
    Outcome::Refused { number, place }
}
