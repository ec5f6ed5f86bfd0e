//! Faults on purpose.

use super::Author;
use crate::gen::model::Model;
use crate::table::{Instr, MAX_NESTING};
use crate::typing::{Status, PUBLIC};

impl Author<'_> {
    /// Writes the fault that is wanted, if it can be written here.
    pub(super) fn try_spoil(&mut self) -> bool {
        if self.spoiled.is_some() {
            return false;
        }
        let place = match self.spoil {
            Some(6) => self.spoil_nesting(),
            Some(10) => self.spoil_public(),
            Some(11) => self.spoil_status(),
            Some(12) => self.spoil_loop(),
            Some(13) => self.spoil_call(),
            _ => None,
        };
        self.spoiled = place;
        place.is_some()
    }

    /// An environment that `of` is not within, differing from it in one slot or
    /// in the status.
    pub(super) fn below(&mut self, of: &Model) -> Option<Model> {
        let mut less = *of;
        let status = self.env.status != Status::Updated && self.rng.chance(1, 3);
        if status {
            less.status = Status::Updated;
            return Some(less);
        }
        // What is below the present environment, not only below `of`.
        let slots: Vec<usize> = (0..24).filter(|&slot| self.slot(slot) > 0).collect();
        if slots.is_empty() {
            if self.env.status == Status::Updated {
                return None;
            }
            less.status = Status::Updated;
            return Some(less);
        }
        let slot = self.rng.pick(&slots);
        let level = self.rng.below(usize::from(self.slot(slot))) as u8;
        if slot < 16 {
            less.registers[slot] = level;
        } else {
            less.arrays[slot - 16] = level;
        }
        Some(less)
    }

    fn slot(&self, slot: usize) -> u8 {
        if slot < 16 {
            self.env.registers[slot]
        } else {
            self.env.arrays[slot - 16]
        }
    }

    /// 6, "17th nesting".
    fn spoil_nesting(&mut self) -> Option<usize> {
        if self.depth + 4 > MAX_NESTING && self.rng.chance(1, 2) {
            return None;
        }
        let mut open = Vec::new();
        let mut place = 0;
        while self.depth <= MAX_NESTING {
            place = self.bytes.len();
            let register = self.any();
            if self.rng.chance(1, 3) {
                let of = self.env;
                open.push(Err(self.open_while(register, of)));
            } else {
                let mut branching = self.open_if(register);
                let second = self.rng.chance(1, 2);
                if second {
                    self.turn(&mut branching);
                }
                open.push(Ok((branching, second)));
            }
        }
        while let Some(block) = open.pop() {
            match block {
                Ok((mut branching, second)) => {
                    if !second {
                        self.turn(&mut branching);
                    }
                    self.close_if(branching);
                }
                Err(looping) => self.close_while(looping),
            }
        }
        Some(place)
    }

    /// A register that is not public, made so if there is none.
    fn not_public(&mut self) -> Option<u8> {
        if self.rng.chance(3, 4) {
            let hidden = self.such(|author, register| author.env.level(register) != PUBLIC);
            if hidden.is_some() {
                return hidden;
            }
        }
        let array = self.array()?;
        let dest = self.free()?;
        let hidden = |author: &Self, array| author.env.arrays[usize::from(array)] != PUBLIC;
        match self.array_such(hidden) {
            Some(array) if self.rng.chance(1, 2) => {
                let index = self.fixed_index(array);
                self.emit(Instr::LoadFixed { dest, array, index });
            }
            _ => {
                self.emit(Instr::Const { dest, value: 0 });
                self.emit(Instr::Load { dest, array, index: dest });
            }
        }
        Some(dest)
    }

    /// 10, "index or guard not public".
    fn spoil_public(&mut self) -> Option<usize> {
        let register = self.not_public()?;
        let place = self.bytes.len();
        match self.rng.below(4) {
            0 => {
                let array = self.array()?;
                let dest = self.any();
                self.emit(Instr::Load { dest, array, index: register });
            }
            1 => {
                let array = self.array()?;
                let source = self.any();
                self.emit(Instr::Store { array, index: register, source });
            }
            2 if self.depth < MAX_NESTING => {
                let mut branching = self.open_if(register);
                self.turn(&mut branching);
                self.close_if(branching);
            }
            3 if self.depth < MAX_NESTING => {
                // Public here or not, it is not public in L.
                let register = self.any();
                let mut of = self.invariant(register);
                let level = &mut of.registers[usize::from(register)];
                *level = self.rng.between(usize::from(*level).max(1), 2) as u8;
                let looping = self.open_while(register, of);
                self.close_while(looping);
            }
            _ => return None,
        }
        Some(place)
    }

    /// 11, "status not as UPDATE or PROTECT needs".
    fn spoil_status(&mut self) -> Option<usize> {
        let place = self.bytes.len();
        if self.env.status != Status::Updated && self.rng.chance(1, 2) {
            let dest = self.any();
            let source = self.any();
            self.emit(Instr::Protect { dest, source });
            return Some(place);
        }
        if let Status::Outdated { register, sense } = self.env.status {
            if self.held >> register & 1 == 0 && self.rng.chance(1, 3) {
                // Written by a LOAD FIXED in between.
                if let Some(array) = self.array() {
                    let index = self.fixed_index(array);
                    self.emit(Instr::LoadFixed { dest: register, array, index });
                    let place = self.bytes.len();
                    self.emit(Instr::Update { register, sense });
                    return Some(place);
                }
            }
        }
        let (register, sense) = match self.env.status {
            // The other sense, or another register.
            Status::Outdated { register, sense } => {
                let other = self.any();
                if other == register || self.rng.chance(1, 2) {
                    (register, 1 - sense)
                } else {
                    (other, sense)
                }
            }
            _ => (self.any(), self.rng.below(2) as u8),
        };
        self.emit(Instr::Update { register, sense });
        Some(place)
    }

    /// 12, "not within the loop environment".
    fn spoil_loop(&mut self) -> Option<usize> {
        if self.depth == MAX_NESTING {
            return None;
        }
        if self.rng.chance(1, 2) {
            return self.spoil_while();
        }
        let register = self.guard()?;
        let mut of = self.invariant(register);
        if self.env.status == Status::Updated && self.rng.chance(1, 2) {
            of.status = Status::Updated;
            return Some(self.stale_loop(register, of));
        }
        let array = self.array()?;
        if self.rng.chance(1, 3) {
            return self.raising_loop(register, of, array);
        }
        self.loading_loop(register, of, array)
    }

    /// 12 at WHILE, the guard public in L or not.
    fn spoil_while(&mut self) -> Option<usize> {
        let register = self.any();
        let raised = self.invariant(register);
        let of = self.below(&raised)?;
        let place = self.bytes.len();
        let looping = self.open_while(register, of);
        self.close_while(looping);
        Some(place)
    }

    /// 12 at ENDWHILE: the body leaves the status that L calls updated outdated.
    fn stale_loop(&mut self, register: u8, of: Model) -> usize {
        let looping = self.open_while(register, of);
        if self.rng.chance(1, 2) {
            // Written after the UPDATE, or instead of it: not updated either way.
            self.emit(Instr::Const { dest: register, value: 1 });
        }
        let place = self.bytes.len();
        self.close_while(looping);
        place
    }

    /// 12 at ENDWHILE: a STORE FIXED in the body raises the array above L.
    fn raising_loop(&mut self, register: u8, of: Model, array: u8) -> Option<usize> {
        let held = of.arrays[usize::from(array)];
        let higher = |_: &Self, source| of.level(source) > held;
        let source = self.such(higher)?;
        let index = self.fixed_index(array);
        let looping = self.open_while(register, of);
        self.emit(Instr::StoreFixed { array, index, source });
        if of.status == Status::Updated {
            self.freshen(1, 1);
        }
        let place = self.bytes.len();
        self.close_while(looping);
        Some(place)
    }

    /// 12 at ENDWHILE: the body loads a register that L calls public.
    fn loading_loop(&mut self, register: u8, mut of: Model, array: u8) -> Option<usize> {
        let dest = self.free_but(register)?;
        of.registers[usize::from(dest)] = self.env.level(dest);
        if self.env.level(dest) != PUBLIC {
            return None;
        }
        let fixed = of.arrays[usize::from(array)] > PUBLIC && self.rng.chance(1, 2);
        let looping = self.open_while(register, of);
        if fixed {
            let index = self.fixed_index(array);
            self.emit(Instr::LoadFixed { dest, array, index });
        } else {
            self.emit(Instr::Const { dest, value: 0 });
            self.emit(Instr::Load { dest, array, index: dest });
        }
        if of.status == Status::Updated {
            self.freshen(1, 1);
        }
        let place = self.bytes.len();
        self.close_while(looping);
        Some(place)
    }

    /// 13, "not within the callee's in".
    fn spoil_call(&mut self) -> Option<usize> {
        if self.number == 0 {
            return None;
        }
        let callee = self.rng.below(self.number);
        if self.env.within(&self.inputs[callee]) {
            return None;
        }
        let place = self.bytes.len();
        let mark = self.rng.below(2) as u8;
        self.emit_call(callee, mark);
        Some(place)
    }
}
