//! Registers, arrays and indices to use, and bringing an environment down.

use super::Author;
use crate::gen::model::Model;
use crate::gen::rules::Rules;
use crate::table::Instr;
use crate::typing::{Status, PUBLIC, TRANSIENT};

impl Author<'_> {
    pub(super) fn any(&mut self) -> u8 {
        self.rng.below(self.registers) as u8
    }

    pub(super) fn such(&mut self, test: impl Fn(&Self, u8) -> bool) -> Option<u8> {
        let first = self.rng.below(self.registers);
        (0..self.registers)
            .map(|step| ((first + step) % self.registers) as u8)
            .find(|&register| test(self, register))
    }

    /// A register that counts no loop.
    pub(super) fn free(&mut self) -> Option<u8> {
        self.such(|author, register| author.held >> register & 1 == 0)
    }

    pub(super) fn free_but(&mut self, but: u8) -> Option<u8> {
        self.such(|author, register| register != but && author.held >> register & 1 == 0)
    }

    pub(super) fn public(&mut self) -> Option<u8> {
        self.such(|author, register| author.env.level(register) == PUBLIC)
    }

    pub(super) fn array(&mut self) -> Option<u8> {
        match self.words.len() {
            0 => None,
            arrays => Some(self.rng.below(arrays) as u8),
        }
    }

    /// UPDATE, some of the times that it is allowed.
    pub(super) fn freshen(&mut self, of: usize, all: usize) {
        if let Status::Outdated { register, sense } = self.env.status {
            if self.rng.chance(of, all) {
                self.emit(Instr::Update { register, sense });
            }
        }
    }

    /// By the author's rules INIT makes transient arrays public.
    pub(super) fn settles(&self) -> bool {
        self.rules != Rules::InitKeepsArrays
    }

    /// INIT, some of the times that it settles an array.
    pub(super) fn settle(&mut self, of: usize, all: usize) {
        if self.settles() && self.env.arrays.contains(&TRANSIENT) && self.rng.chance(of, all) {
            self.emit(Instr::Init);
        }
    }

    /// The present environment, or at times, where INIT settles arrays, what an INIT
    /// would make of it.
    pub(super) fn at_best(&mut self) -> Model {
        let mut env = self.env;
        if self.settles() && self.rng.chance(1, 2) {
            env.apply(&Instr::Init, self.words.len(), self.rules);
        }
        env
    }

    /// Makes the status updated.
    pub(super) fn update(&mut self) {
        self.freshen(1, 1);
        if self.env.status != Status::Updated {
            self.emit(Instr::Init);
        }
    }

    /// Brings the environment within `to`; arrays are so already, or INIT settles them.
    pub(super) fn lower(&mut self, to: &Model) {
        if !self.env.arrays_within(&to.arrays) {
            self.emit(Instr::Init);
        }
        if to.status == Status::Updated {
            self.update();
        }
        for register in 0..self.registers as u8 {
            if self.env.level(register) <= to.level(register) {
                continue;
            }
            let updated = self.env.status == Status::Updated;
            if updated && self.env.level(register) == TRANSIENT && self.rng.chance(2, 3) {
                self.emit(Instr::Protect { dest: register, source: register });
            } else {
                let value = match self.held >> register & 1 {
                    0 => self.rng.word(),
                    _ => 0,
                };
                self.emit(Instr::Const { dest: register, value });
            }
        }
    }

    /// A public register for an access to `array`, mostly in range.
    pub(super) fn index(&mut self, array: u8) -> Option<u8> {
        let words = self.words[usize::from(array)];
        match self.rng.below(12) {
            0..=4 => {
                let dest = self.free()?;
                let value = self.rng.below(words) as u32;
                self.emit(Instr::Const { dest, value });
                Some(dest)
            }
            5..=9 => {
                let left = self.public()?;
                let dest = self.free()?;
                let value = (words as u32 + 1).next_power_of_two() / 2 - 1;
                self.emit(Instr::Const { dest, value });
                self.emit(Instr::Op { dest, op: 4, left, right: dest });
                Some(dest)
            }
            10 if self.rng.chance(1, 3) => {
                let dest = self.free()?;
                let value = words as u32;
                self.emit(Instr::Const { dest, value });
                Some(dest)
            }
            _ if self.rng.chance(1, 2) => self.public(),
            _ => None,
        }
    }

    pub(super) fn may_store(&self, array: u8, source: u8) -> bool {
        self.keeps_ceiling(&Instr::Store { array, index: 0, source })
    }

    pub(super) fn may_store_fixed(&self, array: u8, source: u8) -> bool {
        self.keeps_ceiling(&Instr::StoreFixed { array, index: 0, source })
    }

    fn keeps_ceiling(&self, instr: &Instr) -> bool {
        let mut after = self.env;
        after.apply(instr, self.words.len(), self.rules);
        after.arrays_within(&self.ceiling)
    }

    /// An index that is in range, often the first or the last.
    pub(super) fn fixed_index(&mut self, array: u8) -> u16 {
        let words = self.words[usize::from(array)];
        match self.rng.below(8) {
            0 => 0,
            1 => (words - 1) as u16,
            _ => self.rng.below(words) as u16,
        }
    }

    /// An array such as the test asks for.
    pub(super) fn array_such(&mut self, test: impl Fn(&Self, u8) -> bool) -> Option<u8> {
        let first = self.array()?;
        let arrays = self.words.len() as u8;
        (0..arrays).map(|step| (first + step) % arrays).find(|&array| test(self, array))
    }

    /// A public array half of the time that there is one, else any.
    pub(super) fn rather_public_array(&mut self) -> Option<u8> {
        if self.rng.chance(1, 2) {
            let public = |author: &Self, array| author.env.arrays[usize::from(array)] == PUBLIC;
            if let Some(array) = self.array_such(public) {
                return Some(array);
            }
        }
        self.array()
    }
}
