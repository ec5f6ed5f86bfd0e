//! A few records that belong together.

use super::Author;
use crate::gen::rules::Rules;
use crate::table::{Instr, MAX_NESTING};
use crate::typing::{Status, PUBLIC};

impl Author<'_> {
    pub(super) fn phrase(&mut self) {
        self.phrases = self.phrases.saturating_sub(1);
        if self.bytes.len() > self.shape.bytes {
            self.phrases = 0;
            return;
        }
        if self.rng.chance(1, 8) && self.try_spoil() {
            return;
        }
        let wrong = Rules::WRONG.contains(&self.rules);
        if wrong && self.rng.chance(1, 4) && self.telling().is_some() {
            return;
        }
        if self.settles() && self.rng.chance(1, 16) && self.settling().is_some() {
            return;
        }
        // A phrase that finds no register or array writes nothing.
        let _ = match self.rng.below(122) {
            0..=6 => self.constant(),
            7..=20 => self.operation(),
            21..=24 => self.selection(),
            25..=36 => self.load(),
            37..=47 => self.store(),
            48 => {
                self.emit(Instr::Init);
                Some(())
            }
            49..=53 => {
                self.freshen(1, 1);
                self.protection()
            }
            54..=57 => self.protection(),
            58..=67 => self.guarded(),
            68..=71 => self.passing(),
            72..=80 => self.call(),
            81..=89 => self.branch(),
            90..=97 => self.repeat(),
            98 | 99 => self.tower(),
            100..=109 => self.load_fixed(),
            110..=116 => self.store_fixed(),
            _ => self.spilled(),
        };
    }

    /// A phrase that shows what some of the wrong rules let out.
    fn telling(&mut self) -> Option<()> {
        match self.rules {
            Rules::StoreNamed => self.spilled(),
            Rules::FixedPublic => self.load_fixed(),
            Rules::FixedRaisesNone | Rules::FixedLowers => self.store_fixed(),
            Rules::InitAllArrays => self.settling(),
            Rules::FixedOutdated => {
                self.update();
                self.guarded()
            }
            _ => None,
        }
    }

    pub(super) fn block(&mut self, most: usize) {
        for _ in 0..self.rng.between(0, most) {
            if self.phrases == 0 {
                break;
            }
            self.phrase();
        }
    }

    fn constant(&mut self) -> Option<()> {
        let dest = self.free()?;
        let value = self.rng.word();
        self.emit(Instr::Const { dest, value });
        Some(())
    }

    pub(super) fn operation(&mut self) -> Option<()> {
        let instr = Instr::Op {
            dest: self.free()?,
            op: self.rng.below(8) as u8,
            left: self.any(),
            right: self.any(),
        };
        self.emit(instr);
        Some(())
    }

    fn selection(&mut self) -> Option<()> {
        let instr =
            Instr::Select { dest: self.free()?, cond: self.any(), yes: self.any(), no: self.any() };
        self.emit(instr);
        Some(())
    }

    fn load(&mut self) -> Option<()> {
        let array = self.array()?;
        let index = self.index(array)?;
        let dest = self.free()?;
        self.emit(Instr::Load { dest, array, index });
        if self.env.status == Status::Updated && self.rng.chance(1, 2) {
            self.emit(Instr::Protect { dest, source: dest });
        }
        Some(())
    }

    fn store(&mut self) -> Option<()> {
        let array = self.array()?;
        let index = self.index(array)?;
        let source = self.such(|author, register| author.may_store(array, register))?;
        self.emit(Instr::Store { array, index, source });
        Some(())
    }

    /// LOAD FIXED, also of the register that the flag is outdated by; a public
    /// result is mostly used as an index or guard.
    fn load_fixed(&mut self) -> Option<()> {
        let array = self.rather_public_array()?;
        let index = self.fixed_index(array);
        let dest = match self.env.status {
            Status::Outdated { register, .. }
                if self.held >> register & 1 == 0 && self.rng.chance(1, 3) =>
            {
                register
            }
            _ => self.free()?,
        };
        self.emit(Instr::LoadFixed { dest, array, index });
        self.freshen(1, 4);
        if self.env.status == Status::Updated && self.rng.chance(1, 4) {
            self.emit(Instr::Protect { dest, source: dest });
        }
        self.expose(dest);
        Some(())
    }

    /// STORE FIXED of any level, and at times a LOAD FIXED of that array.
    fn store_fixed(&mut self) -> Option<()> {
        let array = self.rather_public_array()?;
        let index = self.fixed_index(array);
        let source = self.such(|author, register| author.may_store_fixed(array, register))?;
        self.emit(Instr::StoreFixed { array, index, source });
        if self.rng.chance(1, 3) {
            let dest = self.free()?;
            let index = match self.rng.below(2) {
                0 => index,
                _ => self.fixed_index(array),
            };
            self.emit(Instr::LoadFixed { dest, array, index });
            self.expose(dest);
        }
        Some(())
    }

    /// INIT, and after it a LOAD FIXED of an array that was not public before.
    fn settling(&mut self) -> Option<()> {
        let hidden = |author: &Self, array| author.env.arrays[usize::from(array)] != PUBLIC;
        let array = self.array_such(hidden)?;
        let dest = self.free()?;
        self.emit(Instr::Init);
        let index = self.fixed_index(array);
        self.emit(Instr::LoadFixed { dest, array, index });
        self.expose(dest);
        Some(())
    }

    fn protection(&mut self) -> Option<()> {
        if self.env.status == Status::Updated {
            let dest = self.free()?;
            let source = self.any();
            self.emit(Instr::Protect { dest, source });
        }
        Some(())
    }

    pub(super) fn call(&mut self) -> Option<()> {
        if self.number == 0 {
            return None;
        }
        let first = match self.rng.below(2) {
            0 => self.number - 1,
            _ => self.rng.below(self.number),
        };
        let arriving = self.at_best();
        let callee = (0..self.number).map(|step| (first + step) % self.number).find(|&callee| {
            arriving.arrays_within(&self.inputs[callee].arrays)
                && self.outputs[callee].arrays_within(&self.ceiling)
        })?;
        let input = self.inputs[callee];
        self.lower(&input);
        let updated = self.outputs[callee].status == Status::Updated;
        let mark = u8::from(self.rng.chance(if updated { 4 } else { 2 }, 5));
        self.emit_call(callee, mark);
        Some(())
    }

    /// An index set before a CALL and used after it: by a wrong return another
    /// caller's value arrives.
    fn passing(&mut self) -> Option<()> {
        let array = self.array()?;
        let index = self.free()?;
        let value = self.rng.below(self.words[usize::from(array)]) as u32;
        self.emit(Instr::Const { dest: index, value });
        self.call()?;
        if self.env.level(index) != PUBLIC {
            return None;
        }
        let dest = self.free()?;
        self.emit(Instr::Load { dest, array, index });
        if self.env.status == Status::Updated && self.rng.chance(2, 3) {
            self.emit(Instr::Protect { dest, source: dest });
        }
        self.expose(dest);
        Some(())
    }

    /// Lets a register be observed, if it is public.
    pub(super) fn expose(&mut self, register: u8) -> Option<()> {
        if self.env.level(register) != PUBLIC || self.rng.chance(1, 4) {
            return None;
        }
        if self.depth < MAX_NESTING && self.rng.chance(1, 3) {
            let mut branching = self.open_if(register);
            self.freshen(1, 2);
            self.turn(&mut branching);
            self.freshen(1, 2);
            self.close_if(branching);
            return Some(());
        }
        let array = self.array()?;
        let dest = self.free_but(register)?;
        // The largest 2^k - 1 that is an index.
        let words = self.words[usize::from(array)] as u32;
        let value = (words + 1).next_power_of_two() / 2 - 1;
        self.emit(Instr::Const { dest, value });
        self.emit(Instr::Op { dest, op: 4, left: register, right: dest });
        self.emit(Instr::Load { dest, array, index: dest });
        Some(())
    }
}
