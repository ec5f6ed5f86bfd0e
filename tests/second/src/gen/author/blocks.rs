//! Phrases with an IF or a WHILE.

use super::Author;
use crate::gen::model::Model;
use crate::gen::rules::Rules;
use crate::table::{Instr, MAX_NESTING};
use crate::typing::{Status, PUBLIC, SECRET, TRANSIENT};

impl Author<'_> {
    /// A STORE that strays on the wrong way through its bounds check, and after
    /// it LOADs FIXED of arrays that it may have gone to.
    pub(super) fn spilled(&mut self) -> Option<()> {
        if self.depth == MAX_NESTING {
            return None;
        }
        let array = self.array()?;
        let words = self.words[usize::from(array)] as u32;
        let index = self.free()?;
        let bound = self.free_but(index)?;
        self.freshen(1, 2);
        let value = words.saturating_add(self.rng.word());
        self.emit(Instr::Const { dest: index, value });
        self.emit(Instr::Const { dest: bound, value: words });
        self.emit(Instr::Op { dest: bound, op: 6, left: index, right: bound });
        let mut branching = self.open_if(bound);
        self.freshen(1, 2);
        let secret = self.such(|author, register| {
            author.env.level(register) == SECRET && author.may_store(array, register)
        });
        let source = match secret {
            Some(source) => Some(source),
            None => self.such(|author, register| author.may_store(array, register)),
        };
        if let Some(source) = source {
            self.emit(Instr::Store { array, index, source });
        }
        for _ in 0..self.rng.between(1, 2) {
            let public =
                |author: &Self, of| of != array && author.env.arrays[usize::from(of)] == PUBLIC;
            let from = match self.array_such(public) {
                Some(of) => Some(of),
                None => self.array(),
            };
            if let (Some(array), Some(dest)) = (from, self.free()) {
                let index = self.fixed_index(array);
                self.emit(Instr::LoadFixed { dest, array, index });
                self.expose(dest);
            }
        }
        self.block(1);
        self.turn(&mut branching);
        self.freshen(2, 3);
        self.block(1);
        self.close_if(branching);
        Some(())
    }

    /// An access under its own bounds check: the wrong way through the check
    /// strays.
    pub(super) fn guarded(&mut self) -> Option<()> {
        if self.depth == MAX_NESTING {
            return None;
        }
        let array = self.array()?;
        let words = self.words[usize::from(array)] as u32;
        let index = if self.rng.chance(1, 2) {
            let dest = self.free()?;
            let value = words.saturating_add(self.rng.word());
            self.emit(Instr::Const { dest, value });
            dest
        } else {
            self.public()?
        };
        let bound = self.free_but(index)?;
        self.freshen(1, 2);
        self.emit(Instr::Const { dest: bound, value: words });
        self.emit(Instr::Op { dest: bound, op: 6, left: index, right: bound });
        let mut branching = self.open_if(bound);
        let often = if self.rules == Rules::FixedOutdated { 4 } else { 1 };
        if self.rng.chance(often, 8) {
            // The flag's register is written: no UPDATE may follow.
            if let Some(array) = self.rather_public_array() {
                let index = self.fixed_index(array);
                self.emit(Instr::LoadFixed { dest: bound, array, index });
            }
        }
        self.freshen(2, 3);
        if self.rng.chance(2, 3) {
            if let Some(dest) = self.free() {
                self.emit(Instr::Load { dest, array, index });
                if self.env.status == Status::Updated && self.rng.chance(2, 3) {
                    self.emit(Instr::Protect { dest, source: dest });
                }
                self.expose(dest);
            }
        } else if let Some(source) = self.such(|author, register| author.may_store(array, register))
        {
            self.emit(Instr::Store { array, index, source });
        }
        self.block(2);
        self.turn(&mut branching);
        self.freshen(2, 3);
        self.block(1);
        self.close_if(branching);
        Some(())
    }

    /// A public register to branch on.
    pub(super) fn guard(&mut self) -> Option<u8> {
        match self.rng.below(3) {
            0 => {
                let left = self.public()?;
                let right = self.public()?;
                let dest = self.free()?;
                let op = self.rng.between(6, 7) as u8;
                self.emit(Instr::Op { dest, op, left, right });
                Some(dest)
            }
            1 => {
                let dest = self.free()?;
                let value = self.rng.below(2) as u32;
                self.emit(Instr::Const { dest, value });
                Some(dest)
            }
            _ => self.public(),
        }
    }

    pub(super) fn branch(&mut self) -> Option<()> {
        if self.depth == MAX_NESTING {
            return None;
        }
        self.freshen(3, 4);
        let register = self.guard()?;
        let mut branching = self.open_if(register);
        self.freshen(3, 4);
        self.block(4);
        self.turn(&mut branching);
        self.freshen(3, 4);
        self.block(4);
        self.close_if(branching);
        self.freshen(1, 2);
        Some(())
    }

    /// A loop environment above the present one.
    pub(super) fn invariant(&mut self, register: u8) -> Model {
        let mut of = self.env;
        for other in 0..self.registers as u8 {
            if other != register && self.held >> other & 1 == 0 && self.rng.chance(1, 3) {
                let level = &mut of.registers[usize::from(other)];
                *level = self.rng.between(usize::from(*level), 2) as u8;
            }
        }
        if self.rng.chance(1, 2) {
            for (level, &most) in of.arrays.iter_mut().zip(&self.ceiling) {
                *level = most.max(*level);
            }
        } else {
            for (level, &most) in of.arrays.iter_mut().zip(&self.ceiling) {
                if *level < most && self.rng.chance(1, 3) {
                    *level = self.rng.between(usize::from(*level), usize::from(most)) as u8;
                }
            }
        }
        of.status = match self.env.status {
            Status::Updated if self.rng.chance(4, 5) => Status::Updated,
            _ => Status::Unknown,
        };
        of
    }

    /// The array levels that a loop's body may reach: those of L or, at times, where
    /// INIT settles arrays, transient in place of public.
    fn body_ceiling(&mut self, of: &Model) -> [u8; 8] {
        let mut most = of.arrays;
        if self.settles() && self.rng.chance(1, 2) {
            for (level, &outer) in most.iter_mut().zip(&self.ceiling) {
                *level = outer.min(TRANSIENT).max(*level);
            }
        }
        most
    }

    pub(super) fn repeat(&mut self) -> Option<()> {
        if self.depth == MAX_NESTING {
            return None;
        }
        self.freshen(3, 4);
        // Most loops count down from a small number.
        let counting = self.rng.chance(4, 5);
        let register = if counting {
            let dest = self.free()?;
            self.free_but(dest)?;
            let value = self.rng.below(4) as u32;
            self.emit(Instr::Const { dest, value });
            dest
        } else {
            self.public()?
        };
        self.settle(1, 4);
        let of = self.invariant(register);
        let held = self.held;
        let ceiling = self.ceiling;
        if counting {
            self.held |= 1 << register;
        }
        self.ceiling = self.body_ceiling(&of);
        let looping = self.open_while(register, of);
        self.freshen(4, 5);
        self.block(4);
        if counting {
            self.freshen(4, 5);
            if let Some(one) = self.free() {
                self.emit(Instr::Const { dest: one, value: 1 });
                self.emit(Instr::Op { dest: register, op: 1, left: register, right: one });
            }
        }
        if self.rules != Rules::LoopOnce {
            self.lower(&of);
        }
        self.close_while(looping);
        self.held = held;
        self.ceiling = ceiling;
        self.freshen(3, 4);
        Some(())
    }

    /// Blocks in blocks, up to the deepest nesting.
    pub(super) fn tower(&mut self) -> Option<()> {
        let deepest = match self.rng.below(2) {
            0 => MAX_NESTING,
            _ => self.rng.between(self.depth, MAX_NESTING),
        };
        self.tower_to(deepest)
    }

    fn tower_to(&mut self, deepest: usize) -> Option<()> {
        if self.depth >= deepest {
            return self.operation();
        }
        self.freshen(1, 2);
        let register = self.guard()?;
        if self.rng.chance(1, 3) {
            let of = self.invariant(register);
            let ceiling = self.ceiling;
            self.ceiling = self.body_ceiling(&of);
            let looping = self.open_while(register, of);
            let _ = self.tower_to(deepest);
            if self.rng.chance(1, 2) {
                // The loop ends after one round.
                if let Some(dest) = self.free() {
                    self.emit(Instr::Const { dest, value: 0 });
                }
            }
            self.lower(&of);
            self.close_while(looping);
            self.ceiling = ceiling;
        } else {
            let mut branching = self.open_if(register);
            let first = self.rng.chance(1, 2);
            if first {
                let _ = self.tower_to(deepest);
            }
            self.turn(&mut branching);
            if !first {
                let _ = self.tower_to(deepest);
            }
            self.close_if(branching);
        }
        Some(())
    }
}
