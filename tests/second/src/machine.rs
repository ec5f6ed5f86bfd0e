//! The step machine: faults 15 and 16, stops 20 to 26.

use crate::table::{
    fault, read, Fault, Instr, Table, CALL_LENGTH, ELSE_LENGTH, ENDIF_LENGTH, ENDWHILE_LENGTH,
    MAX_ARRAYS, MAX_FUNCTIONS,
};

/// "directive list over 16,384 bytes"
pub const MAX_DIRECTIVES: usize = 16_384;

/// The kind bytes of directives and observations.
pub mod kind {
    pub const PLAIN: u8 = 0x60;
    pub const BRANCH: u8 = 0x61;
    pub const STRAY: u8 = 0x62;
    pub const RETURN: u8 = 0x63;
    pub const SAW_NOTHING: u8 = 0x70;
    pub const SAW_BRANCH: u8 = 0x71;
    pub const SAW_ADDRESS: u8 = 0x72;
}

/// PROTECT "gives 4,294,967,295 when masked".
pub const MASK: u32 = 4_294_967_295;

/// What a run gives back.
#[derive(Clone, Copy, Debug, PartialEq, Eq)]
pub enum Outcome {
    /// A fault, 1 to 9, 15 or 16; all that was lent is as it was.
    Refused { number: u8, place: usize },
    /// "A run ends with a stop, the place it stands at and the steps taken".
    Stopped { number: u8, place: usize, steps: usize, misspeculating: bool, masked: bool },
}

/// A decoded directive.
#[derive(Clone, Copy, Debug, PartialEq, Eq)]
pub enum Directive {
    Plain,
    Branch { way: bool },
    Stray { array: u8, index: u16 },
    Return { place: u16 },
}

impl Directive {
    /// The directive that starts `bytes`, and its length. `None` if there is
    /// none, or it has "an unknown kind", is "cut short", or has "a branch byte
    /// over 1".
    #[inline]
    pub fn decode(bytes: &[u8]) -> Option<(Directive, usize)> {
        Some(match *bytes.first()? {
            kind::PLAIN => (Directive::Plain, 1),
            kind::BRANCH => match *bytes.get(1)? {
                0 => (Directive::Branch { way: false }, 2),
                1 => (Directive::Branch { way: true }, 2),
                _ => return None,
            },
            kind::STRAY => {
                let body = bytes.get(1..4)?;
                let index = u16::from_le_bytes([body[1], body[2]]);
                (Directive::Stray { array: body[0], index }, 4)
            }
            kind::RETURN => {
                let body = bytes.get(1..3)?;
                let place = u16::from_le_bytes([body[0], body[1]]);
                (Directive::Return { place }, 3)
            }
            _ => return None,
        })
    }

    pub fn encode(&self, out: &mut Vec<u8>) {
        match *self {
            Directive::Plain => out.push(kind::PLAIN),
            Directive::Branch { way } => out.extend_from_slice(&[kind::BRANCH, u8::from(way)]),
            Directive::Stray { array, index } => {
                out.extend_from_slice(&[kind::STRAY, array]);
                out.extend_from_slice(&index.to_le_bytes());
            }
            Directive::Return { place } => {
                out.push(kind::RETURN);
                out.extend_from_slice(&place.to_le_bytes());
            }
        }
    }
}

/// Length of a whole directive, kind byte included; `None` for an unknown kind.
pub fn directive_length(kind: u8) -> Option<usize> {
    match kind {
        kind::PLAIN => Some(1),
        kind::BRANCH => Some(2),
        kind::STRAY => Some(4),
        kind::RETURN => Some(3),
        _ => None,
    }
}

/// 16: "directive list over 16,384 bytes (place 0, tested first); else the first
/// directive with an unknown kind, cut short, or with a branch byte over 1".
pub fn read_directives(directives: &[u8]) -> Result<(), Fault> {
    if directives.len() > MAX_DIRECTIVES {
        return Err(fault(16, 0));
    }
    let mut place = 0;
    while place < directives.len() {
        match Directive::decode(&directives[place..]) {
            Some((_, length)) => place += length,
            None => return Err(fault(16, place)),
        }
    }
    Ok(())
}

/// A place that follows a CALL.
#[derive(Clone, Copy, Debug)]
pub(crate) struct Site {
    pub place: usize,
    pub function: u8,
    pub mark: u8,
}

/// "State: place, registers, memory [...], stack of return places,
/// misspeculating yes/no, flag clear or masked." Registers and memory are lent
/// to each step.
pub(crate) struct Machine<'a> {
    table: Table<'a>,
    /// Where each array starts in memory; one past the last holds the end.
    bases: [usize; MAX_ARRAYS + 1],
    /// The call sites in table order, listed at the first RETURN that is not to
    /// the top of the stack.
    sites: Option<Vec<Site>>,
    place: usize,
    /// "The stack never needs more than 31 places."
    stack: [u16; MAX_FUNCTIONS - 1],
    depth: usize,
    misspeculating: bool,
    masked: bool,
}

/// What the record at the machine's place asks for, for who writes directives.
pub(crate) enum Due {
    /// The entry's RETURN: the run ends here.
    End,
    /// 23 or 24 will stop the run, whatever the directive.
    Stuck,
    Plain,
    Branch {
        right: bool,
    },
    Stray {
        store: bool,
    },
    Return {
        top: Option<u16>,
        function: usize,
    },
}

impl<'a> Machine<'a> {
    /// "A start has the entry's first place, empty stack, no, clear."
    pub fn new(table: &Table<'a>) -> Machine<'a> {
        let mut bases = [0; MAX_ARRAYS + 1];
        for array in 0..table.arrays() {
            bases[array + 1] = bases[array] + table.words(array);
        }
        Machine {
            table: *table,
            bases,
            sites: None,
            place: table.start(table.entry()),
            stack: [0; MAX_FUNCTIONS - 1],
            depth: 0,
            misspeculating: false,
            masked: false,
        }
    }

    /// The call sites, in table order.
    pub fn sites(&mut self) -> &[Site] {
        let table = self.table;
        self.sites.get_or_insert_with(|| {
            let site = |(place, instr)| match instr {
                Instr::Call { function, mark } => {
                    Some(Site { place: place + CALL_LENGTH, function, mark })
                }
                _ => None,
            };
            table.instrs().filter_map(site).collect()
        })
    }

    #[inline]
    fn words(&self, array: u8) -> usize {
        let array = usize::from(array);
        self.bases[array + 1] - self.bases[array]
    }

    /// The word of memory that a LOAD or STORE touches: 24, 22, 25.
    #[inline]
    fn access(&self, array: u8, asked: u32, directive: Directive) -> Result<usize, u8> {
        // "LOAD and STORE in range take 60"
        if (asked as usize) < self.words(array) {
            return match directive {
                Directive::Plain => Ok(self.bases[usize::from(array)] + asked as usize),
                _ => Err(22),
            };
        }
        // "24 access out of range on the right path"
        if !self.misspeculating {
            return Err(24);
        }
        // "out of range while misspeculating they take 62 and touch the named
        // word"
        match directive {
            Directive::Stray { array, index } => {
                let index = usize::from(index);
                if usize::from(array) < self.table.arrays() && index < self.words(array) {
                    Ok(self.bases[usize::from(array)] + index)
                } else {
                    Err(25)
                }
            }
            _ => Err(22),
        }
    }

    /// One step, or the number of the stop. The tests go "21 [...] 20 [...] 23
    /// [...] 24 [...] 22 [...] 25 [...] 26 [...] in that order at each step,
    /// before anything changes". `room` is what is left of the observations; the
    /// answer is how much of it the step wrote.
    #[inline(always)]
    pub fn step(
        &mut self,
        registers: &mut [u32],
        memory: &mut [u32],
        directive: Option<Directive>,
        room: &mut [u8],
    ) -> Result<usize, u8> {
        let (instr, length) = self.table.instr(self.place);
        let next = self.place + length;
        // "21 entry's RETURN reached": the entry is the last function and no
        // byte follows its RETURN.
        if next == self.table.bytes().len() {
            return Err(21);
        }
        let directive = directive.ok_or(20)?;
        match instr {
            Instr::Const { dest, value } => {
                quiet(directive, room)?;
                registers[usize::from(dest)] = value;
            }
            Instr::Op { dest, op, left, right } => {
                quiet(directive, room)?;
                let left = registers[usize::from(left)];
                let right = registers[usize::from(right)];
                registers[usize::from(dest)] = apply(op, left, right);
            }
            Instr::Select { dest, cond, yes, no } => {
                quiet(directive, room)?;
                let from = if registers[usize::from(cond)] != 0 { yes } else { no };
                registers[usize::from(dest)] = registers[usize::from(from)];
            }
            Instr::Load { dest, array, index } => {
                let asked = registers[usize::from(index)];
                let word = self.access(array, asked, directive)?;
                saw_address(room, array, asked)?;
                registers[usize::from(dest)] = memory[word];
                self.place = next;
                return Ok(6);
            }
            Instr::Store { array, index, source } => {
                let asked = registers[usize::from(index)];
                let word = self.access(array, asked, directive)?;
                saw_address(room, array, asked)?;
                memory[word] = registers[usize::from(source)];
                self.place = next;
                return Ok(6);
            }
            // 02, order 1: "Both take the plain directive and observe the
            // address", misspeculating or not; the reading has seen that the
            // index is in range.
            Instr::LoadFixed { dest, array, index } => {
                plain(directive)?;
                saw_address(room, array, u32::from(index))?;
                let word = self.bases[usize::from(array)] + usize::from(index);
                registers[usize::from(dest)] = memory[word];
                self.place = next;
                return Ok(6);
            }
            Instr::StoreFixed { array, index, source } => {
                plain(directive)?;
                saw_address(room, array, u32::from(index))?;
                let word = self.bases[usize::from(array)] + usize::from(index);
                memory[word] = registers[usize::from(source)];
                self.place = next;
                return Ok(6);
            }
            Instr::Init => {
                if self.misspeculating {
                    return Err(23);
                }
                quiet(directive, room)?;
                self.masked = false;
            }
            Instr::Update { register, sense } => {
                quiet(directive, room)?;
                // "UPDATE masks it if its condition is false."
                if (registers[usize::from(register)] != 0) != (sense == 1) {
                    self.masked = true;
                }
            }
            Instr::Protect { dest, source } => {
                quiet(directive, room)?;
                registers[usize::from(dest)] =
                    if self.masked { MASK } else { registers[usize::from(source)] };
            }
            Instr::Call { function, .. } => {
                quiet(directive, room)?;
                // "CALL pushes the place after it and goes to the function."
                self.stack[self.depth] = next as u16;
                self.depth += 1;
                self.place = self.table.start(usize::from(function));
                return Ok(1);
            }
            Instr::If { register, else_place } => {
                let right = registers[usize::from(register)] != 0;
                let way = branch(directive, right, room)?;
                self.misspeculating |= way != right;
                // "1: into the first block or body; 0: second block, or past
                // ENDWHILE"
                self.place = if way { next } else { usize::from(else_place) + ELSE_LENGTH };
                return Ok(2);
            }
            Instr::While { register, end_place, .. } => {
                let right = registers[usize::from(register)] != 0;
                let way = branch(directive, right, room)?;
                self.misspeculating |= way != right;
                self.place = if way { next } else { usize::from(end_place) + ENDWHILE_LENGTH };
                return Ok(2);
            }
            Instr::Else { endif_place } => {
                quiet(directive, room)?;
                self.place = usize::from(endif_place) + ENDIF_LENGTH;
                return Ok(1);
            }
            Instr::EndWhile { while_place } => {
                quiet(directive, room)?;
                self.place = usize::from(while_place);
                return Ok(1);
            }
            Instr::EndIf => quiet(directive, room)?,
            Instr::Return => {
                let named = match directive {
                    Directive::Return { place } => place,
                    _ => return Err(22),
                };
                // "if the place is on top of the stack, pop and go"
                if self.depth > 0 && self.stack[self.depth - 1] == named {
                    saw_nothing(room)?;
                    self.depth -= 1;
                } else {
                    // "Otherwise, if it follows a CALL of this function, go
                    // there, empty the stack, misspeculate, and mask the flag if
                    // that CALL has mark 1."
                    let mark = self.wrong_return(usize::from(named)).ok_or(25)?;
                    saw_nothing(room)?;
                    self.depth = 0;
                    self.misspeculating = true;
                    self.masked |= mark == 1;
                }
                self.place = usize::from(named);
                return Ok(1);
            }
        }
        self.place = next;
        Ok(1)
    }

    /// The mark of the CALL of this function (whose RETURN the machine stands
    /// at) that a place follows, if there is one.
    #[cold]
    fn wrong_return(&mut self, place: usize) -> Option<u8> {
        let here = self.table.function_at(self.place);
        let sites = self.sites();
        let found = sites.binary_search_by_key(&place, |site| site.place).ok()?;
        let site = sites[found];
        if usize::from(site.function) == here {
            Some(site.mark)
        } else {
            None
        }
    }

    pub fn place(&self) -> usize {
        self.place
    }

    /// How many return places are on the stack.
    pub fn depth(&self) -> usize {
        self.depth
    }

    /// What a directive must be here for the run to go on.
    pub fn due(&self, registers: &[u32]) -> Due {
        let (instr, length) = self.table.instr(self.place);
        if self.place + length == self.table.bytes().len() {
            return Due::End;
        }
        match instr {
            Instr::If { register, .. } | Instr::While { register, .. } => {
                Due::Branch { right: registers[usize::from(register)] != 0 }
            }
            Instr::Load { array, index, .. } | Instr::Store { array, index, .. } => {
                if (registers[usize::from(index)] as usize) < self.words(array) {
                    Due::Plain
                } else if self.misspeculating {
                    Due::Stray { store: matches!(instr, Instr::Store { .. }) }
                } else {
                    Due::Stuck
                }
            }
            Instr::Init if self.misspeculating => Due::Stuck,
            Instr::Return => Due::Return {
                top: self.stack[..self.depth].last().copied(),
                function: self.table.function_at(self.place),
            },
            _ => Due::Plain,
        }
    }

    fn stopped(&self, number: u8, steps: usize) -> Outcome {
        Outcome::Stopped {
            number,
            place: self.place,
            steps,
            misspeculating: self.misspeculating,
            masked: self.masked,
        }
    }
}

/// 22 for all but 60.
#[inline]
fn plain(directive: Directive) -> Result<(), u8> {
    match directive {
        Directive::Plain => Ok(()),
        _ => Err(22),
    }
}

/// A record that takes 60 and observes nothing: 22, then 26.
#[inline]
fn quiet(directive: Directive, room: &mut [u8]) -> Result<(), u8> {
    plain(directive)?;
    saw_nothing(room)
}

/// A branch: the way the directive names. 22, then 26; "71 branch, 1 byte (1 if
/// the register is not zero)".
#[inline]
fn branch(directive: Directive, right: bool, room: &mut [u8]) -> Result<bool, u8> {
    match directive {
        Directive::Branch { way } => {
            let room = room.get_mut(..2).ok_or(26)?;
            room.copy_from_slice(&[kind::SAW_BRANCH, u8::from(right)]);
            Ok(way)
        }
        _ => Err(22),
    }
}

/// "70 nothing"; 26 without room.
#[inline]
fn saw_nothing(room: &mut [u8]) -> Result<(), u8> {
    *room.first_mut().ok_or(26)? = kind::SAW_NOTHING;
    Ok(())
}

/// "72 address, array 1, index 4": "the array and index asked for"; 26 without
/// room.
#[inline]
fn saw_address(room: &mut [u8], array: u8, asked: u32) -> Result<(), u8> {
    let room = room.get_mut(..6).ok_or(26)?;
    room[0] = kind::SAW_ADDRESS;
    room[1] = array;
    room[2..].copy_from_slice(&asked.to_le_bytes());
    Ok(())
}

/// "Ops 0..7, left first, on unsigned 32-bit words: add, subtract, multiply (all
/// modulo 2^32), xor, and, or, less (1 or 0), equal (1 or 0)."
#[inline]
fn apply(op: u8, left: u32, right: u32) -> u32 {
    match op {
        0 => left.wrapping_add(right),
        1 => left.wrapping_sub(right),
        2 => left.wrapping_mul(right),
        3 => left ^ right,
        4 => left & right,
        5 => left | right,
        6 => u32::from(left < right),
        _ => u32::from(left == right),
    }
}

/// Runs a table under a directive list. "Running goes 1 to 9, 15, 16. All of
/// these leave registers, memory and observations untouched."
pub fn run(
    table: &[u8],
    registers: &mut [u32],
    memory: &mut [u32],
    directives: &[u8],
    observations: &mut [u8],
) -> Outcome {
    let refused = |Fault { number, place }| Outcome::Refused { number, place };
    let table = match read(table) {
        Ok(table) => table,
        Err(fault) => return refused(fault),
    };
    // "register or memory length differs from the table's"
    if registers.len() != table.registers() || memory.len() != table.memory() {
        return refused(fault(15, 0));
    }
    if let Err(fault) = read_directives(directives) {
        return refused(fault);
    }

    let mut machine = Machine::new(&table);
    let mut used = 0;
    let mut written = 0;
    let mut steps = 0;
    loop {
        // "Each step uses one directive and writes one observation."
        let (directive, length) = match Directive::decode(&directives[used..]) {
            Some((directive, length)) => (Some(directive), length),
            None => (None, 0),
        };
        match machine.step(registers, memory, directive, &mut observations[written..]) {
            Ok(wrote) => written += wrote,
            Err(number) => return machine.stopped(number, steps),
        }
        used += length;
        steps += 1;
    }
}
