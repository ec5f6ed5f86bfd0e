//! Writes a table record by record, with the environment that typing gives.
//!
//! * `records`: single records, and what they leave.
//! * `choices`: registers, arrays and indices; bringing an environment down.
//! * `phrases`: a few records that belong together; `blocks`: those with an IF or a
//!   WHILE.
//! * `spoiling`: faults on purpose.

mod blocks;
mod choices;
mod phrases;
mod records;
mod spoiling;

use super::model::Model;
use super::rng::Rng;
use super::rules::Rules;
use crate::table::{kind, Instr, ARRAY_LENGTH, MAX_BYTES, SIGNATURE_LENGTH, SIZES_LENGTH};
use crate::typing::{Status, PUBLIC, SECRET, TRANSIENT};

/// How large a table to write.
#[derive(Clone, Copy, Debug)]
pub struct Shape {
    pub functions: (usize, usize),
    pub phrases: (usize, usize),
    /// Past so many bytes only what must be written is.
    pub bytes: usize,
}

impl Shape {
    pub const SMALL: Shape = Shape { functions: (1, 3), phrases: (1, 8), bytes: 2_000 };
    pub const MIDDLE: Shape = Shape { functions: (2, 8), phrases: (3, 16), bytes: 8_000 };
    pub const LARGE: Shape = Shape { functions: (8, 32), phrases: (4, 40), bytes: 24_000 };

    /// Many short functions, for deep stacks.
    pub const DEEP: Shape = Shape { functions: (6, 32), phrases: (0, 4), bytes: 16_000 };

    /// Mostly small and middle.
    pub fn any(rng: &mut Rng) -> Shape {
        match rng.below(20) {
            0..=7 => Shape::SMALL,
            8..=16 => Shape::MIDDLE,
            17 | 18 => Shape::DEEP,
            _ => Shape::LARGE,
        }
    }
}

/// Writes a table record by record, with the environment that typing gives.
pub(super) struct Author<'r> {
    rng: &'r mut Rng,
    shape: Shape,
    bytes: Vec<u8>,
    registers: usize,
    words: Vec<usize>,
    functions: usize,
    /// Array levels that no function goes above.
    most: [u8; 8],

    starts: Vec<usize>,
    inputs: Vec<Model>,
    outputs: Vec<Model>,

    /// The function being written.
    number: usize,
    env: Model,
    /// Array levels that the open loops and the function allow.
    ceiling: [u8; 8],
    /// Registers that count the open loops.
    held: u16,
    depth: usize,
    phrases: usize,

    rules: Rules,
    /// The fault to write, and where it is once written.
    spoil: Option<u8>,
    spoiled: Option<usize>,
}

impl<'r> Author<'r> {
    pub(super) fn new(
        shape: Shape,
        rng: &'r mut Rng,
        rules: Rules,
        spoil: Option<u8>,
    ) -> Author<'r> {
        let registers = match rng.below(8) {
            0 => 1,
            1 => 16,
            2 => 2,
            _ => rng.between(3, 15),
        };
        let arrays = match rng.below(8) {
            0 => 0,
            1 => 8,
            _ => rng.between(1, 4),
        };
        let functions = rng.between(shape.functions.0, shape.functions.1);
        let words = (0..arrays)
            .map(|_| match rng.below(16) {
                0 => 1024,
                1 => rng.between(1, 1024),
                2 => 1,
                _ => rng.between(1, 12),
            })
            .collect();
        let mut most = [PUBLIC; 8];
        let kind = rng.below(4);
        for level in &mut most[..arrays] {
            *level = match kind {
                0 => SECRET,
                1 => rng.between(1, 2) as u8,
                2 => rng.pick(&[TRANSIENT, TRANSIENT, SECRET]),
                _ => rng.below(3) as u8,
            };
        }
        let header = SIZES_LENGTH + arrays * ARRAY_LENGTH + functions * SIGNATURE_LENGTH;
        Author {
            rng,
            shape,
            bytes: vec![0; header],
            registers,
            words,
            functions,
            most,
            starts: Vec::new(),
            inputs: Vec::new(),
            outputs: Vec::new(),
            number: 0,
            env: Model::PUBLIC,
            ceiling: most,
            held: 0,
            depth: 0,
            phrases: 0,
            rules,
            spoil,
            spoiled: None,
        }
    }

    /// The table, and the place of the fault that was written into it.
    pub(super) fn write(mut self) -> (Vec<u8>, Option<usize>) {
        for number in 0..self.functions {
            self.number = number;
            self.function();
        }
        let mut header =
            vec![kind::SIZES, self.registers as u8, self.words.len() as u8, self.functions as u8];
        for &words in &self.words {
            header.push(kind::ARRAY);
            header.extend_from_slice(&(words as u16).to_le_bytes());
        }
        for function in 0..self.functions {
            header.push(kind::SIGNATURE);
            header.extend_from_slice(&(self.starts[function] as u16).to_le_bytes());
            header.extend_from_slice(&self.inputs[function].packed().to_bytes());
            header.extend_from_slice(&self.outputs[function].packed().to_bytes());
        }
        self.bytes[..header.len()].copy_from_slice(&header);
        assert!(self.bytes.len() <= MAX_BYTES, "shapes keep tables short");
        (self.bytes, self.spoiled)
    }

    fn function(&mut self) {
        let entry = self.number + 1 == self.functions;
        let input = self.input(entry);
        self.starts.push(self.bytes.len());
        self.inputs.push(input);
        self.env = input;
        self.ceiling = self.most;
        self.body(entry);
        let output = self.output(entry);
        self.outputs.push(output);
        Instr::Return.encode(&mut self.bytes);
    }

    /// An in-environment.
    fn input(&mut self, entry: bool) -> Model {
        let mut input = Model::PUBLIC;
        for level in &mut input.registers[..self.registers] {
            *level = self.rng.pick(&[PUBLIC, PUBLIC, PUBLIC, TRANSIENT, SECRET, SECRET]);
        }
        let full = !entry && self.rng.chance(2, 3);
        for (level, &most) in input.arrays.iter_mut().zip(&self.most) {
            *level = if full || most == SECRET && self.rng.chance(1, 2) {
                most
            } else {
                self.rng.between(0, usize::from(most)) as u8
            };
        }
        // 8: "entry's in status not unknown"
        if !entry && self.rng.chance(1, 2) {
            input.status = Status::Updated;
        }
        input
    }

    /// All of a function but its RETURN.
    fn body(&mut self, entry: bool) {
        self.phrases = self.rng.between(self.shape.phrases.0, self.shape.phrases.1);
        if entry && self.rng.chance(1, 2) {
            self.emit(Instr::Init);
        }
        while self.phrases > 0 {
            self.phrase();
        }
        if self.number > 0 && self.rng.chance(if entry { 4 } else { 3 }, 5) {
            self.call();
        }
        if entry && self.spoiled.is_none() {
            for _ in 0..8 {
                self.try_spoil();
            }
        }
        self.settle(1, 6);
        self.freshen(1, 2);
    }

    /// An out-environment that the present one is within, or is not where 14 is wanted.
    fn output(&mut self, entry: bool) -> Model {
        let mut output = self.env;
        for level in &mut output.registers[..self.registers] {
            if self.rng.chance(1, 6) {
                *level = self.rng.between(usize::from(*level), 2) as u8;
            }
        }
        for (level, &most) in output.arrays.iter_mut().zip(&self.most) {
            if *level < most && self.rng.chance(1, 6) {
                *level = self.rng.between(usize::from(*level), usize::from(most)) as u8;
            }
        }
        output.status = match self.env.status {
            Status::Updated if self.rng.chance(5, 6) => Status::Updated,
            _ => Status::Unknown,
        };
        if self.spoil == Some(14) && self.spoiled.is_none() && (entry || self.rng.chance(1, 3)) {
            if let Some(less) = self.below(&output) {
                self.spoiled = Some(self.bytes.len());
                output = less;
            }
        }
        output
    }
}
