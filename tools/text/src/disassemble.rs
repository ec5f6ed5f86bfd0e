//! From bytes to text.

use crate::{LEVELS, OPS};
use second::table::{self, kind, Instr, Packed};
use std::fmt::Write;

/// A text that assembles to these bytes. A table that reads is shown whole, with
/// each record's place in a comment; of one that does not, the records before
/// the fault are shown with their named places written out, and the rest as
/// `hex`.
pub fn disassemble(bytes: &[u8]) -> String {
    let byte = |at: usize| usize::from(bytes.get(at).copied().unwrap_or(0));
    let mut listing = Listing { registers: byte(1), arrays: byte(2), ..Listing::default() };
    let mut end = bytes.len();
    if let Err(fault) = table::read(bytes) {
        let _ = writeln!(listing.text, "; refused {} at {}", fault.number, fault.place);
        listing.written = true;
        end = fault.place;
    }
    let mut place = 0;
    while place < end {
        match listing.record(bytes, place) {
            Some(length) => place += length,
            None => break,
        }
    }
    listing.hex(&bytes[place..]);
    listing.text
}

/// The text so far.
#[derive(Default)]
struct Listing {
    text: String,
    registers: usize,
    arrays: usize,
    /// Named places are written out.
    written: bool,
    signatures: usize,
    functions: usize,
    /// Inside a function, and inside so many blocks.
    inside: bool,
    depth: usize,
}

impl Listing {
    /// Writes the line of the record at a place; gives the record's length. Before a fault's place,
    /// and in a table that reads, all records are whole and of known kinds.
    fn record(&mut self, bytes: &[u8], place: usize) -> Option<usize> {
        let mut note = String::new();
        let (line, length) = match bytes[place..] {
            [kind::SIZES, r, a, f, ..] => (format!("sizes {} {} {}", r, a, f), table::SIZES_LENGTH),
            [kind::ARRAY, a, b, ..] => {
                (format!("array {}", u16::from_le_bytes([a, b])), table::ARRAY_LENGTH)
            }
            [kind::SIGNATURE, s, t, a, b, c, d, e, f, g, h, i, j, k, l, m, n, ..] => {
                note = format!(" f{}", self.signatures);
                self.signatures += 1;
                let line = format!(
                    "signature {} {}{}",
                    self.env(Packed::from_bytes([a, b, c, d, e, f, g])),
                    self.env(Packed::from_bytes([h, i, j, k, l, m, n])),
                    self.at(u16::from_le_bytes([s, t]))
                );
                (line, table::SIGNATURE_LENGTH)
            }
            _ => {
                let (instr, length) = Instr::decode(&bytes[place..])?;
                (self.indented(&instr), length)
            }
        };
        let _ = writeln!(self.text, "{:<40} ; {}{}", line, place, note);
        Some(length)
    }

    /// A record of code, indented by the blocks around it; a function's first has a heading.
    fn indented(&mut self, instr: &Instr) -> String {
        if !self.inside {
            self.inside = true;
            let _ = writeln!(self.text, "\n; function {}", self.functions);
            self.functions += 1;
        }
        if matches!(instr, Instr::Else { .. } | Instr::EndIf | Instr::EndWhile { .. }) {
            self.depth -= 1;
        }
        let indent = "  ".repeat(self.depth + 1);
        if matches!(instr, Instr::If { .. } | Instr::Else { .. } | Instr::While { .. }) {
            self.depth += 1;
        }
        if *instr == Instr::Return {
            self.inside = false;
        }
        indent + &self.instruction(instr)
    }

    /// Bytes that are no records.
    fn hex(&mut self, bytes: &[u8]) {
        for row in bytes.chunks(16) {
            self.text.push_str("hex");
            for byte in row {
                let _ = write!(self.text, " {:02X}", byte);
            }
            self.text.push('\n');
        }
    }

    fn env(&self, packed: Packed) -> String {
        env_text(packed, self.registers, self.arrays)
    }

    /// A named place, where it is to be written out.
    fn at(&self, place: u16) -> String {
        if self.written {
            format!(" @{}", place)
        } else {
            String::new()
        }
    }

    fn instruction(&self, instr: &Instr) -> String {
        match *instr {
            Instr::Const { dest, value } => format!("const r{} {}", dest, value),
            Instr::Op { dest, op, left, right } => match OPS.get(usize::from(op)) {
                Some(name) => format!("{} r{} r{} r{}", name, dest, left, right),
                None => format!("op {} r{} r{} r{}", op, dest, left, right),
            },
            Instr::Select { dest, cond, yes, no } => {
                format!("select r{} r{} r{} r{}", dest, cond, yes, no)
            }
            Instr::Load { dest, array, index } => format!("load r{} a{}[r{}]", dest, array, index),
            Instr::Store { array, index, source } => {
                format!("store a{}[r{}] r{}", array, index, source)
            }
            Instr::LoadFixed { dest, array, index } => {
                format!("load r{} a{}[{}]", dest, array, index)
            }
            Instr::StoreFixed { array, index, source } => {
                format!("store a{}[{}] r{}", array, index, source)
            }
            Instr::Init => "init".to_string(),
            Instr::Update { register, sense } => match sense {
                0 => format!("update r{} zero", register),
                1 => format!("update r{} nonzero", register),
                other => format!("update r{} {}", register, other),
            },
            Instr::Protect { dest, source } => format!("protect r{} r{}", dest, source),
            Instr::Call { function, mark } => match mark {
                0 => format!("call f{}", function),
                1 => format!("call f{} marked", function),
                other => format!("call f{} {}", function, other),
            },
            Instr::If { register, else_place } => {
                format!("if r{}{}", register, self.at(else_place))
            }
            Instr::Else { endif_place } => format!("else{}", self.at(endif_place)),
            Instr::EndIf => "endif".to_string(),
            Instr::While { register, end_place, env: packed } => {
                format!("while r{} {}{}", register, self.env(packed), self.at(end_place))
            }
            Instr::EndWhile { while_place } => format!("endwhile{}", self.at(while_place)),
            Instr::Return => "return".to_string(),
        }
    }
}

/// An environment's status and levels; letters for the slots in use, and up to
/// the last one that is not 0.
fn env_text(packed: Packed, registers: usize, arrays: usize) -> String {
    let letters = |packed: u64, used: usize, all: usize| -> String {
        let level = |slot: usize| (packed >> (2 * slot) & 3) as usize;
        let shown = (used.min(all)..all).rev().find(|&slot| level(slot) != 0);
        let shown = shown.map_or(used.min(all), |slot| slot + 1);
        (0..shown).map(|slot| LEVELS[level(slot)]).collect()
    };
    let status = match packed.status {
        0 => "unknown".to_string(),
        1 => "updated".to_string(),
        other => other.to_string(),
    };
    format!(
        "{} {}/{}",
        status,
        letters(packed.levels & 0xffff_ffff, registers, 16),
        letters(packed.levels >> 32, arrays, 8)
    )
}
