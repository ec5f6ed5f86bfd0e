//! The typing rules a second time, plainly, level by level, so that the
//! checker's bit arithmetic does not vouch for itself.

use super::rules::Rules;
use crate::table::{self, fault, Instr, Packed};
use crate::typing::{Status, PUBLIC, SECRET, TRANSIENT};

/// An environment, level by level.
#[derive(Clone, Copy, Debug, PartialEq, Eq)]
pub(super) struct Model {
    pub(super) status: Status,
    pub(super) registers: [u8; 16],
    pub(super) arrays: [u8; 8],
}

impl Model {
    pub(super) const PUBLIC: Model =
        Model { status: Status::Unknown, registers: [PUBLIC; 16], arrays: [PUBLIC; 8] };

    pub(super) fn packed(&self) -> Packed {
        let mut levels = 0;
        for (slot, &level) in self.registers.iter().chain(&self.arrays).enumerate() {
            levels |= u64::from(level) << (2 * slot);
        }
        Packed { status: u8::from(self.status == Status::Updated), levels }
    }

    pub(super) fn arrays_within(&self, other: &[u8; 8]) -> bool {
        self.arrays.iter().zip(other).all(|(mine, most)| mine <= most)
    }

    fn from_packed(packed: Packed) -> Model {
        let mut model = Model::PUBLIC;
        if packed.status == 1 {
            model.status = Status::Updated;
        }
        let slots = model.registers.iter_mut().chain(&mut model.arrays);
        for (slot, level) in slots.enumerate() {
            *level = (packed.levels >> (2 * slot) & 3) as u8;
        }
        model
    }

    pub(super) fn within(&self, other: &Model) -> bool {
        self.registers.iter().zip(&other.registers).all(|(mine, most)| mine <= most)
            && self.arrays_within(&other.arrays)
            && (other.status == Status::Unknown || other.status == self.status)
    }

    pub(super) fn join(&self, other: &Model) -> Model {
        let mut joined = *self;
        for (level, &with) in joined.registers.iter_mut().zip(&other.registers) {
            *level = with.max(*level);
        }
        for (level, &with) in joined.arrays.iter_mut().zip(&other.arrays) {
            *level = with.max(*level);
        }
        if self.status != other.status {
            joined.status = Status::Unknown;
        }
        joined
    }

    pub(super) fn way(&self, register: u8, sense: u8, rules: Rules) -> Model {
        let mut way = *self;
        way.status = match self.status {
            Status::Updated if rules == Rules::BranchUpdated => Status::Updated,
            Status::Updated => Status::Outdated { register, sense },
            _ => Status::Unknown,
        };
        way
    }

    fn write(&mut self, register: u8, level: u8, rules: Rules) {
        self.registers[usize::from(register)] = level;
        match self.status {
            Status::Outdated { register: of, .. }
                if of == register && rules != Rules::WriteOutdated =>
            {
                self.status = Status::Unknown;
            }
            _ => {}
        }
    }

    pub(super) fn level(&self, register: u8) -> u8 {
        self.registers[usize::from(register)]
    }

    /// The number that a record's demands on registers and status give if they
    /// are not met; those of loops, calls and returns are left to the walk.
    fn demands(&self, instr: &Instr) -> Result<(), u8> {
        let (holds, number) = match *instr {
            Instr::Load { index, .. } | Instr::Store { index, .. } => {
                (self.level(index) == PUBLIC, 10)
            }
            Instr::If { register, .. } => (self.level(register) == PUBLIC, 10),
            Instr::Update { register, sense } => {
                (self.status == Status::Outdated { register, sense }, 11)
            }
            Instr::Protect { .. } => (self.status == Status::Updated, 11),
            _ => (true, 0),
        };
        if holds {
            Ok(())
        } else {
            Err(number)
        }
    }

    /// What a CALL leaves.
    pub(super) fn called(&self, output: &Model, mark: u8, rules: Rules) -> Model {
        let mut after = *output;
        if rules == Rules::CallKeeps {
            after.registers = self.registers;
        }
        after.status = match output.status {
            Status::Updated if mark == 1 || rules == Rules::CallUpdated => Status::Updated,
            _ => Status::Unknown,
        };
        after
    }

    /// What a record that is no block's or function's boundary leaves, whether
    /// or not its demands are met.
    pub(super) fn apply(&mut self, instr: &Instr, arrays: usize, rules: Rules) {
        match *instr {
            Instr::Const { dest, .. } => self.write(dest, PUBLIC, rules),
            Instr::Op { dest, left, right, .. } => {
                self.write(dest, self.level(left).max(self.level(right)), rules);
            }
            Instr::Select { dest, cond, yes, no } => {
                let level = self.level(cond).max(self.level(yes)).max(self.level(no));
                self.write(dest, level, rules);
            }
            Instr::Load { dest, array, .. } => {
                let level = match self.arrays[usize::from(array)] {
                    SECRET => SECRET,
                    PUBLIC if rules == Rules::LoadPublic => PUBLIC,
                    _ => TRANSIENT,
                };
                self.write(dest, level, rules);
            }
            Instr::Store { array, source, .. } => {
                self.store(usize::from(array), self.level(source), arrays, rules);
            }
            Instr::LoadFixed { dest, array, .. } => self.load_fixed(dest, array, rules),
            Instr::StoreFixed { array, source, .. } => {
                let level = self.level(source);
                let held = &mut self.arrays[usize::from(array)];
                *held = match rules {
                    Rules::FixedRaisesNone => *held,
                    Rules::FixedLowers => level,
                    _ => level.max(*held),
                };
            }
            Instr::Init => self.init(rules),
            Instr::Update { .. } => self.status = Status::Updated,
            Instr::Protect { dest, source } => {
                let level = match self.level(source) {
                    SECRET if rules != Rules::ProtectAll => SECRET,
                    _ => PUBLIC,
                };
                self.write(dest, level, rules);
            }
            _ => {}
        }
    }

    /// A STORE of this level: it may stray, and leave it in any array.
    fn store(&mut self, array: usize, level: u8, arrays: usize, rules: Rules) {
        self.arrays[array] = self.arrays[array].max(level);
        if level != PUBLIC && rules != Rules::StoreNamed {
            for (other, held) in self.arrays.iter_mut().enumerate().take(arrays) {
                if other != array && *held == PUBLIC {
                    *held = TRANSIENT;
                }
            }
        }
    }

    fn load_fixed(&mut self, dest: u8, array: u8, rules: Rules) {
        let status = self.status;
        let level = match rules {
            Rules::FixedPublic => PUBLIC,
            _ => self.arrays[usize::from(array)],
        };
        self.write(dest, level, rules);
        if rules == Rules::FixedOutdated {
            self.status = status;
        }
    }

    fn init(&mut self, rules: Rules) {
        for level in &mut self.registers {
            if *level == TRANSIENT || rules == Rules::InitAll {
                *level = PUBLIC;
            }
        }
        for level in &mut self.arrays {
            if *level == TRANSIENT && rules != Rules::InitKeepsArrays
                || rules == Rules::InitAllArrays
            {
                *level = PUBLIC;
            }
        }
        self.status = Status::Updated;
    }
}

/// Reads a table and types it by these rules, level by level; gives how many
/// functions it has. By [`Rules::Right`] that is the checker's answer.
pub fn check_by(rules: Rules, bytes: &[u8]) -> Result<usize, table::Fault> {
    let table = table::read(bytes)?;
    let mut function = 0;
    let mut env = Model::from_packed(table.input(function));
    // The open blocks: for a first block how the second starts, for a second one
    // how the first ended, for a loop its guard, L, and what it goes on with.
    let mut seconds = Vec::new();
    let mut firsts = Vec::new();
    let mut loops = Vec::new();
    for (place, instr) in table.instrs() {
        env.demands(&instr).map_err(|number| fault(number, place))?;
        let need = |holds: bool, number: u8| match holds {
            true => Ok(()),
            false => Err(fault(number, place)),
        };
        match instr {
            Instr::If { register, .. } => {
                seconds.push(env.way(register, 0, rules));
                env = env.way(register, 1, rules);
            }
            Instr::Else { .. } => {
                firsts.push(env);
                env = seconds.pop().expect("an IF is open");
            }
            Instr::EndIf => env = firsts.pop().expect("an ELSE is open").join(&env),
            Instr::While { register, env: packed, .. } => {
                let of = Model::from_packed(packed);
                need(env.within(&of), 12)?;
                need(of.level(register) == PUBLIC, 10)?;
                let from = match rules {
                    Rules::LoopArriving => env,
                    _ => of,
                };
                loops.push((register, of, from));
                env = from.way(register, 1, rules);
            }
            Instr::EndWhile { .. } => {
                let (register, of, from) = loops.pop().expect("a WHILE is open");
                need(rules == Rules::LoopOnce || env.within(&of), 12)?;
                env = from.way(register, 0, rules);
            }
            Instr::Call { function: callee, mark } => {
                let callee = usize::from(callee);
                need(env.within(&Model::from_packed(table.input(callee))), 13)?;
                env = env.called(&Model::from_packed(table.output(callee)), mark, rules);
            }
            Instr::Return => {
                need(env.within(&Model::from_packed(table.output(function))), 14)?;
                function += 1;
                if function < table.functions() {
                    env = Model::from_packed(table.input(function));
                }
            }
            _ => env.apply(&instr, table.arrays(), rules),
        }
    }
    Ok(function)
}
