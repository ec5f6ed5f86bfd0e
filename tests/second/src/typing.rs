//! "Typing, record by record": faults 10 to 14.
//!
//! An environment keeps its levels as one word of two-bit slots in which
//! public, transient and secret are the bits 00, 01 and 11, so that the larger
//! of two levels is `|` and "at most" is "no bit outside", for all slots at once.

use crate::table::{fault, Fault, Instr, Packed, Table, MAX_NESTING};

/// "Levels: 0 public, 1 transient [...], 2 secret."
pub const PUBLIC: u8 = 0;
pub const TRANSIENT: u8 = 1;
pub const SECRET: u8 = 2;

/// "Flag status: unknown; updated; outdated(r, s), where r is a register and s
/// is 1 for 'r is not zero', 0 for 'r is zero'."
#[derive(Clone, Copy, Debug, PartialEq, Eq)]
pub enum Status {
    Unknown,
    Updated,
    Outdated { register: u8, sense: u8 },
}

/// The lower bit of every slot.
const LOW: u64 = 0x5555_5555_5555;
/// One slot.
const SLOT: u64 = 0b11;
const TRANSIENT_BITS: u64 = 0b01;
const SECRET_BITS: u64 = 0b11;

#[inline]
fn register_slot(register: u8) -> u32 {
    2 * u32::from(register)
}

#[inline]
fn array_slot(array: u8) -> u32 {
    32 + 2 * u32::from(array)
}

/// "An environment gives a status, and a level to each register and array."
#[derive(Clone, Copy, Debug, PartialEq, Eq)]
pub struct Env {
    status: Status,
    levels: u64,
}

impl Env {
    /// An environment of the given levels; slots not given are public.
    pub fn new(status: Status, registers: &[u8], arrays: &[u8]) -> Env {
        let mut env = Env { status, levels: 0 };
        for (slot, &level) in (0..).step_by(2).zip(registers) {
            env.raise(slot, bits_of(level));
        }
        for (slot, &level) in (32..).step_by(2).zip(arrays) {
            env.raise(slot, bits_of(level));
        }
        env
    }

    #[inline]
    pub fn from_packed(packed: Packed) -> Env {
        let status = match packed.status {
            0 => Status::Unknown,
            _ => Status::Updated,
        };
        let levels = packed.levels | ((packed.levels >> 1) & LOW);
        Env { status, levels }
    }

    pub fn status(&self) -> Status {
        self.status
    }

    pub fn register(&self, register: u8) -> u8 {
        level_of(self.get(register_slot(register)))
    }

    pub fn array(&self, array: u8) -> u8 {
        level_of(self.get(array_slot(array)))
    }

    #[inline]
    fn get(&self, slot: u32) -> u64 {
        (self.levels >> slot) & SLOT
    }

    #[inline]
    fn raise(&mut self, slot: u32, bits: u64) {
        self.levels |= bits << slot;
    }

    /// A write to a register that gives it a level. "Any other write to r turns
    /// outdated(r, s) into unknown" (PROTECT's own write finds status updated,
    /// so that the rule is idle there).
    #[inline]
    fn write(&mut self, register: u8, bits: u64) {
        let slot = register_slot(register);
        self.levels = (self.levels & !(SLOT << slot)) | (bits << slot);
        if let Status::Outdated { register: of, .. } = self.status {
            if of == register {
                self.status = Status::Unknown;
            }
        }
    }

    #[inline]
    fn public(&self, register: u8) -> Result<(), u8> {
        if self.get(register_slot(register)) == 0 {
            Ok(())
        } else {
            Err(10)
        }
    }

    /// "E is within F when each level of E is at most F's and F's status is
    /// unknown or equal to E's."
    #[inline]
    pub fn within(&self, other: &Env) -> bool {
        self.levels & !other.levels == 0
            && (other.status == Status::Unknown || other.status == self.status)
    }

    /// "The join takes the larger level slot by slot; equal statuses stay,
    /// others become unknown."
    #[inline]
    pub fn join(&self, other: &Env) -> Env {
        Env {
            status: if self.status == other.status { self.status } else { Status::Unknown },
            levels: self.levels | other.levels,
        }
    }

    /// The status that a way of a branch on `register` starts with: "If the
    /// status is updated, the first block starts outdated(r,1), the second
    /// outdated(r,0); else both unknown."
    #[inline]
    fn after_branch(&self, register: u8, sense: u8) -> Env {
        Env {
            status: match self.status {
                Status::Updated => Status::Outdated { register, sense },
                _ => Status::Unknown,
            },
            levels: self.levels,
        }
    }

    /// IF: the environments that the first and the second block start with.
    #[inline]
    pub fn branch(&self, register: u8) -> Result<(Env, Env), u8> {
        self.public(register)?;
        Ok((self.after_branch(register, 1), self.after_branch(register, 0)))
    }

    /// WHILE: "the arriving environment must be within the loop environment L,
    /// and r public in L"; "at WHILE 12 before 10". Gives the body's start:
    /// "from L with the status as for IF".
    #[inline]
    pub fn enter_loop(&self, register: u8, of: &Env) -> Result<Env, u8> {
        if !self.within(of) {
            return Err(12);
        }
        of.public(register)?;
        Ok(of.after_branch(register, 1))
    }

    /// "After it: L with status outdated(r,0) if L was updated, else unknown."
    /// `self` is L.
    #[inline]
    pub fn after_loop(&self, register: u8) -> Env {
        self.after_branch(register, 0)
    }

    /// CALL: "the environment must be within the callee's in. After it: the
    /// callee's out levels; updated if the mark is 1 and the out status is
    /// updated, else unknown."
    #[inline]
    pub fn call(&self, input: &Env, output: &Env, mark: u8) -> Result<Env, u8> {
        if !self.within(input) {
            return Err(13);
        }
        Ok(Env {
            status: if mark == 1 && output.status == Status::Updated {
                Status::Updated
            } else {
                Status::Unknown
            },
            levels: output.levels,
        })
    }

    /// The records that neither open nor close a block, nor call or return; the
    /// others are left to the walk. `arrays` is how many arrays there are.
    #[inline(always)]
    pub fn simple(&mut self, instr: &Instr, arrays: usize) -> Result<(), u8> {
        match *instr {
            // "CONST: dest public."
            Instr::Const { dest, .. } => self.write(dest, 0),
            // "OP, SELECT: dest gets the largest level among its sources."
            Instr::Op { dest, left, right, .. } => {
                let bits = self.get(register_slot(left)) | self.get(register_slot(right));
                self.write(dest, bits);
            }
            Instr::Select { dest, cond, yes, no } => {
                let bits = self.get(register_slot(cond))
                    | self.get(register_slot(yes))
                    | self.get(register_slot(no));
                self.write(dest, bits);
            }
            // "LOAD: index must be public; dest is transient if the array is
            // public or transient, else secret."
            Instr::Load { dest, array, index } => {
                self.public(index)?;
                let bits = self.get(array_slot(array)) | TRANSIENT_BITS;
                self.write(dest, bits);
            }
            // "STORE: index must be public. The named array gets the larger of
            // its level and the source's. If the source is not public, every
            // other public array becomes transient."
            Instr::Store { array, index, source } => {
                self.public(index)?;
                let bits = self.get(register_slot(source));
                self.raise(array_slot(array), bits);
                if bits != 0 {
                    let slots = (1u64 << (2 * arrays)) - 1;
                    self.levels |= (slots & LOW) << 32;
                }
            }
            // 02, order 1: "LOAD FIXED gives dest the array's own level"; no stray
            // access can put another array's word there.
            Instr::LoadFixed { dest, array, .. } => {
                let bits = self.get(array_slot(array));
                self.write(dest, bits);
            }
            // "STORE FIXED raises only the named array as STORE does and no
            // other."
            Instr::StoreFixed { array, source, .. } => {
                let bits = self.get(register_slot(source));
                self.raise(array_slot(array), bits);
            }
            // 02, order 3: "INIT turns every transient register and array public";
            // 01: "status updated". Only the secret slots keep their bits.
            Instr::Init => {
                let secret = (self.levels >> 1) & LOW;
                self.levels = secret | (secret << 1);
                self.status = Status::Updated;
            }
            // "UPDATE (r, s): status must be outdated(r, s); becomes updated."
            Instr::Update { register, sense } => {
                if self.status != (Status::Outdated { register, sense }) {
                    return Err(11);
                }
                self.status = Status::Updated;
            }
            // "PROTECT: status must be updated and stays so; dest is public
            // unless the source is secret, then secret."
            Instr::Protect { dest, source } => {
                if self.status != Status::Updated {
                    return Err(11);
                }
                let secret = self.get(register_slot(source)) == SECRET_BITS;
                self.write(dest, if secret { SECRET_BITS } else { 0 });
            }
            _ => {}
        }
        Ok(())
    }
}

fn bits_of(level: u8) -> u64 {
    match level {
        PUBLIC => 0,
        TRANSIENT => TRANSIENT_BITS,
        _ => SECRET_BITS,
    }
}

fn level_of(bits: u64) -> u8 {
    match bits {
        0 => PUBLIC,
        TRANSIENT_BITS => TRANSIENT,
        _ => SECRET,
    }
}

/// Types every function in table order; the first fault ends it.
pub fn types(table: &Table<'_>) -> Result<(), Fault> {
    let mut place = table.code();
    for function in 0..table.functions() {
        place = type_function(table, function, place)?;
    }
    Ok(())
}

/// What a block that is being typed leaves for its end.
#[derive(Clone, Copy)]
enum Frame {
    Function,
    /// In the first block of an IF; the second starts so.
    First {
        second: Env,
    },
    /// In the second block; the first ended so.
    Second {
        first: Env,
    },
    /// In a loop body on `register` with loop environment `of`.
    Body {
        register: u8,
        of: Env,
    },
}

/// Types one function; gives the place after its RETURN. "A function starts in
/// its in-environment. Records are typed in table order."
fn type_function(table: &Table<'_>, function: usize, first: usize) -> Result<usize, Fault> {
    let mut env = Env::from_packed(table.input(function));
    let mut frames = [Frame::Function; MAX_NESTING + 1];
    let mut depth = 0;
    let mut place = first;
    loop {
        let (instr, length) = table.instr(place);
        let at = |number| fault(number, place);
        match instr {
            Instr::If { register, .. } => {
                let (first, second) = env.branch(register).map_err(at)?;
                depth += 1;
                frames[depth] = Frame::First { second };
                env = first;
            }
            Instr::Else { .. } => {
                if let Frame::First { second } = frames[depth] {
                    frames[depth] = Frame::Second { first: env };
                    env = second;
                }
            }
            Instr::EndIf => {
                if let Frame::Second { first } = frames[depth] {
                    env = first.join(&env);
                }
                depth -= 1;
            }
            Instr::While { register, env: packed, .. } => {
                let of = Env::from_packed(packed);
                env = env.enter_loop(register, &of).map_err(at)?;
                depth += 1;
                frames[depth] = Frame::Body { register, of };
            }
            Instr::EndWhile { .. } => {
                if let Frame::Body { register, of } = frames[depth] {
                    // "must end within L"
                    if !env.within(&of) {
                        return Err(at(12));
                    }
                    env = of.after_loop(register);
                }
                depth -= 1;
            }
            Instr::Call { function: callee, mark } => {
                let callee = usize::from(callee);
                let input = Env::from_packed(table.input(callee));
                let output = Env::from_packed(table.output(callee));
                env = env.call(&input, &output, mark).map_err(at)?;
            }
            // "RETURN: the environment must be within the function's out."
            Instr::Return => {
                let output = Env::from_packed(table.output(function));
                return if env.within(&output) { Ok(place + length) } else { Err(at(14)) };
            }
            _ => env.simple(&instr, table.arrays()).map_err(at)?,
        }
        place += length;
    }
}
