//! Tables, words and runs as text, in one line each, so that a case can be kept
//! and tried again.
//!
//! A table is hexadecimal. A run is table, registers, memory, directives and
//! observations (as lent), with blanks between. Words are decimal with commas
//! between; empty is `-`.

use second::gen::RunCase;
use second::message::{Part, Slice};

pub fn hex(bytes: &[u8]) -> String {
    const DIGITS: &[u8; 16] = b"0123456789abcdef";
    if bytes.is_empty() {
        return "-".to_string();
    }
    let mut text = String::with_capacity(2 * bytes.len());
    for &byte in bytes {
        text.push(char::from(DIGITS[usize::from(byte >> 4)]));
        text.push(char::from(DIGITS[usize::from(byte & 15)]));
    }
    text
}

pub fn unhex(text: &str) -> Option<Vec<u8>> {
    if text == "-" {
        return Some(Vec::new());
    }
    let digit = |letter: u8| char::from(letter).to_digit(16).map(|digit| digit as u8);
    text.as_bytes()
        .chunks(2)
        .map(|pair| match *pair {
            [high, low] => Some(digit(high)? << 4 | digit(low)?),
            _ => None,
        })
        .collect()
}

pub fn words(of: &[u32]) -> String {
    if of.is_empty() {
        return "-".to_string();
    }
    let words: Vec<String> = of.iter().map(u32::to_string).collect();
    words.join(",")
}

pub fn unwords(text: &str) -> Option<Vec<u32>> {
    if text == "-" {
        return Some(Vec::new());
    }
    text.split(',').map(|word| word.parse().ok()).collect()
}

pub fn shows(part: Part) -> String {
    let slice = match part.slice {
        Slice::Table => "table",
        Slice::Directives => "directives",
    };
    format!("shows {} {} {}", slice, part.offset, part.length)
}

pub fn run_text(case: &RunCase) -> String {
    format!(
        "{} {} {} {} {}",
        hex(&case.table),
        words(&case.registers),
        words(&case.memory),
        hex(&case.directives),
        hex(&case.observations)
    )
}

pub fn parse_run(text: &str) -> Option<RunCase> {
    let mut fields = text.split_whitespace();
    Some(RunCase {
        table: unhex(fields.next()?)?,
        registers: unwords(fields.next()?)?,
        memory: unwords(fields.next()?)?,
        directives: unhex(fields.next()?)?,
        observations: unhex(fields.next()?)?,
    })
}
