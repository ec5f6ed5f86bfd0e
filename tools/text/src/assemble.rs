//! From text to bytes.

use crate::{LEVELS, OPS};
use second::table::{kind, Instr, Packed};

/// The bytes that a text describes, or what is wrong with it.
pub fn assemble(text: &str) -> Result<Vec<u8>, String> {
    let mut assembler = Assembler::default();
    for (number, line) in text.lines().enumerate() {
        assembler.line(line).map_err(|error| format!("line {}: {}", number + 1, error))?;
    }
    assembler.finish()
}

/// A named place that a later record decides.
#[derive(Clone, Copy)]
enum Hole {
    /// Written out with `@`.
    Filled,
    /// Two bytes at this offset.
    At(usize),
}

enum Open {
    First(Hole),
    Second(Hole),
    Body(usize, Hole),
}

#[derive(Default)]
struct Assembler {
    bytes: Vec<u8>,
    open: Vec<Open>,
    /// The start places that signatures want, in order of functions.
    starts: Vec<Hole>,
    /// Functions begun so far.
    functions: usize,
    inside: bool,
}

/// The index of an access: in a register, or fixed.
enum Index {
    Register(u8),
    Fixed(u16),
}

/// The words of one line, taken one by one.
struct Words<'a> {
    words: Vec<&'a str>,
    next: usize,
}

impl<'a> Words<'a> {
    fn next(&mut self) -> Result<&'a str, String> {
        let word = self.words.get(self.next).ok_or("a word is missing")?;
        self.next += 1;
        Ok(word)
    }

    fn byte(&mut self) -> Result<u8, String> {
        number(self.next()?, 0xff).map(|value| value as u8)
    }

    /// A numbered name such as `r3`.
    fn named(&mut self, letter: char) -> Result<u8, String> {
        let word = self.next()?;
        let digits =
            word.strip_prefix(letter).ok_or_else(|| format!("`{}` is no {}N", word, letter))?;
        number(digits, 0xff).map(|value| value as u8)
    }

    fn register(&mut self) -> Result<u8, String> {
        self.named('r')
    }

    fn array(&mut self) -> Result<u8, String> {
        self.named('a')
    }

    /// What stands in an access's brackets.
    fn index(&mut self) -> Result<Index, String> {
        let word = self.next()?;
        Ok(match word.strip_prefix('r') {
            Some(digits) => Index::Register(number(digits, 0xff)? as u8),
            None => Index::Fixed(number(word, 0xffff)? as u16),
        })
    }

    fn env(&mut self) -> Result<Packed, String> {
        let status = match self.next()? {
            "unknown" => 0,
            "updated" => 1,
            other => number(other, 0xff)? as u8,
        };
        let word = self.next()?;
        let slash = word.find('/').ok_or_else(|| format!("`{}` is no REGISTERS/ARRAYS", word))?;
        let registers = levels(&word[..slash], 16)?;
        let arrays = levels(&word[slash + 1..], 8)?;
        Ok(Packed { status, levels: registers | arrays << 32 })
    }

    /// An `@N` at the line's end, if there is one.
    fn place(&mut self) -> Result<Option<u16>, String> {
        match self.words.get(self.next).and_then(|word| word.strip_prefix('@')) {
            Some(digits) => {
                self.next += 1;
                Ok(Some(number(digits, 0xffff)? as u16))
            }
            None => Ok(None),
        }
    }

    fn end(&self) -> Result<(), String> {
        match self.words.get(self.next) {
            Some(word) => Err(format!("`{}` is too much", word)),
            None => Ok(()),
        }
    }
}

fn number(digits: &str, most: u32) -> Result<u32, String> {
    let parsed = match digits.strip_prefix("0x") {
        Some(digits) => u32::from_str_radix(digits, 16),
        None => digits.parse(),
    };
    match parsed {
        Ok(value) if value <= most => Ok(value),
        _ => Err(format!("`{}` is no number up to {}", digits, most)),
    }
}

fn levels(letters: &str, most: usize) -> Result<u64, String> {
    if letters.chars().count() > most {
        return Err(format!("`{}` has over {} levels", letters, most));
    }
    let mut packed = 0;
    for (slot, letter) in letters.chars().enumerate() {
        let level = LEVELS
            .iter()
            .position(|&known| known == letter)
            .ok_or_else(|| format!("`{}` is no level", letter))?;
        packed |= (level as u64) << (2 * slot);
    }
    Ok(packed)
}

impl Assembler {
    fn line(&mut self, line: &str) -> Result<(), String> {
        let text = line.split(';').next().unwrap_or("");
        let blank = |letter: char| letter.is_whitespace() || matches!(letter, '[' | ']' | ',');
        let mut words =
            Words { words: text.split(blank).filter(|word| !word.is_empty()).collect(), next: 0 };
        if words.words.is_empty() {
            return Ok(());
        }
        self.record(&mut words)?;
        words.end()
    }

    /// A hole for the two bytes at `offset`, unless the place is written out.
    fn hole(written: Option<u16>, offset: usize) -> Hole {
        match written {
            Some(_) => Hole::Filled,
            None => Hole::At(offset),
        }
    }

    fn fill(&mut self, hole: Hole, place: usize) -> Result<(), String> {
        if let Hole::At(offset) = hole {
            if place > 0xffff {
                return Err(format!("place {} does not fit two bytes", place));
            }
            self.bytes[offset..offset + 2].copy_from_slice(&(place as u16).to_le_bytes());
        }
        Ok(())
    }

    fn record(&mut self, words: &mut Words<'_>) -> Result<(), String> {
        let name = words.next()?;
        if self.header(name, words)? || self.raw(name, words)? {
            return Ok(());
        }
        let place = self.bytes.len();
        let instr = match self.block(name, words)? {
            Some(instr) => instr,
            None => instruction(name, words)?,
        };
        if !self.inside {
            self.inside = true;
            if let Some(&hole) = self.starts.get(self.functions) {
                self.fill(hole, place)?;
            }
            self.functions += 1;
        }
        if instr == Instr::Return && self.open.is_empty() {
            self.inside = false;
        }
        instr.encode(&mut self.bytes);
        Ok(())
    }

    /// A record before the code, if the name is one's.
    fn header(&mut self, name: &str, words: &mut Words<'_>) -> Result<bool, String> {
        match name {
            "sizes" => {
                let record = [kind::SIZES, words.byte()?, words.byte()?, words.byte()?];
                self.bytes.extend_from_slice(&record);
            }
            "array" => {
                let [a, b] = (number(words.next()?, 0xffff)? as u16).to_le_bytes();
                self.bytes.extend_from_slice(&[kind::ARRAY, a, b]);
            }
            "signature" => {
                let input = words.env()?;
                let output = words.env()?;
                let written = words.place()?;
                self.starts.push(Self::hole(written, self.bytes.len() + 1));
                self.bytes.push(kind::SIGNATURE);
                self.bytes.extend_from_slice(&written.unwrap_or(0).to_le_bytes());
                self.bytes.extend_from_slice(&input.to_bytes());
                self.bytes.extend_from_slice(&output.to_bytes());
            }
            _ => return Ok(false),
        }
        Ok(true)
    }

    /// Bytes that are no record, if the name says so.
    fn raw(&mut self, name: &str, words: &mut Words<'_>) -> Result<bool, String> {
        match name {
            "hex" => {
                while let Ok(word) = words.next() {
                    let byte = u8::from_str_radix(word, 16);
                    let byte = byte.map_err(|_| format!("`{}` is no byte", word))?;
                    self.bytes.push(byte);
                }
            }
            "zeros" => {
                let count = number(words.next()?, 0xffff)? as usize;
                self.bytes.resize(self.bytes.len() + count, 0);
            }
            _ => return Ok(false),
        }
        Ok(true)
    }

    /// A record that opens, divides or closes a block, if the name is one's.
    fn block(&mut self, name: &str, words: &mut Words<'_>) -> Result<Option<Instr>, String> {
        let place = self.bytes.len();
        Ok(Some(match name {
            "if" => {
                let register = words.register()?;
                let written = words.place()?;
                self.open.push(Open::First(Self::hole(written, place + 2)));
                Instr::If { register, else_place: written.unwrap_or(0) }
            }
            "else" => {
                let written = words.place()?;
                match self.open.pop() {
                    Some(Open::First(hole)) => self.fill(hole, place)?,
                    _ if written.is_some() => {}
                    _ => return Err("no `if` is open".to_string()),
                }
                self.open.push(Open::Second(Self::hole(written, place + 1)));
                Instr::Else { endif_place: written.unwrap_or(0) }
            }
            "endif" => {
                match self.open.pop() {
                    Some(Open::Second(hole)) => self.fill(hole, place)?,
                    _ => return Err("no `else` is open".to_string()),
                }
                Instr::EndIf
            }
            "while" => {
                let register = words.register()?;
                let env = words.env()?;
                let written = words.place()?;
                let hole = Self::hole(written, place + 2);
                self.open.push(Open::Body(place, hole));
                Instr::While { register, end_place: written.unwrap_or(0), env }
            }
            "endwhile" => {
                let written = words.place()?;
                let start = match self.open.pop() {
                    Some(Open::Body(start, hole)) => {
                        self.fill(hole, place)?;
                        start
                    }
                    _ if written.is_some() => 0,
                    _ => return Err("no `while` is open".to_string()),
                };
                if start > 0xffff {
                    return Err(format!("place {} does not fit two bytes", start));
                }
                Instr::EndWhile { while_place: written.unwrap_or(start as u16) }
            }
            _ => return Ok(None),
        }))
    }

    fn finish(self) -> Result<Vec<u8>, String> {
        for open in &self.open {
            if let Open::First(Hole::At(at))
            | Open::Second(Hole::At(at))
            | Open::Body(_, Hole::At(at)) = open
            {
                return Err(format!("the block whose end byte {} names stays open", at));
            }
        }
        let begun = self.starts.iter().skip(self.functions);
        if begun.clone().any(|hole| matches!(hole, Hole::At(_))) {
            return Err("a signature has no function".to_string());
        }
        Ok(self.bytes)
    }
}

/// A record of code that belongs to no block.
fn instruction(name: &str, words: &mut Words<'_>) -> Result<Instr, String> {
    Ok(match name {
        "const" => {
            Instr::Const { dest: words.register()?, value: number(words.next()?, u32::MAX)? }
        }
        "op" => {
            let op = words.byte()?;
            operation(op, words)?
        }
        "select" => Instr::Select {
            dest: words.register()?,
            cond: words.register()?,
            yes: words.register()?,
            no: words.register()?,
        },
        "load" => {
            let dest = words.register()?;
            let array = words.array()?;
            match words.index()? {
                Index::Register(index) => Instr::Load { dest, array, index },
                Index::Fixed(index) => Instr::LoadFixed { dest, array, index },
            }
        }
        "store" => {
            let array = words.array()?;
            let index = words.index()?;
            let source = words.register()?;
            match index {
                Index::Register(index) => Instr::Store { array, index, source },
                Index::Fixed(index) => Instr::StoreFixed { array, index, source },
            }
        }
        "init" => Instr::Init,
        "update" => Instr::Update {
            register: words.register()?,
            sense: match words.next()? {
                "zero" => 0,
                "nonzero" => 1,
                other => number(other, 0xff)? as u8,
            },
        },
        "protect" => Instr::Protect { dest: words.register()?, source: words.register()? },
        "call" => Instr::Call {
            function: words.named('f')?,
            mark: match words.next() {
                Ok("marked") => 1,
                Ok(other) => number(other, 0xff)? as u8,
                Err(_) => 0,
            },
        },
        "return" => Instr::Return,
        _ => match OPS.iter().position(|&op| op == name) {
            Some(op) => operation(op as u8, words)?,
            None => return Err(format!("`{}` is no record", name)),
        },
    })
}

fn operation(op: u8, words: &mut Words<'_>) -> Result<Instr, String> {
    Ok(Instr::Op { dest: words.register()?, op, left: words.register()?, right: words.register()? })
}
