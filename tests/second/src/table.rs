//! Reading of a table over its bytes: faults 1 to 9.
//!
//! A table that reads stays where it is: [`Table`] borrows the bytes, and
//! because the header's records have fixed lengths and a fixed order, arrays and
//! signatures are looked up in them by arithmetic, without a copy.

use std::convert::TryInto;

/// "at most 32,768 bytes"
pub const MAX_BYTES: usize = 32_768;
/// "nested at most 16 deep"
pub const MAX_NESTING: usize = 16;
pub const MAX_REGISTERS: usize = 16;
pub const MAX_ARRAYS: usize = 8;
pub const MAX_FUNCTIONS: usize = 32;
pub const MAX_WORDS: usize = 1024;

/// The kind bytes of the records.
pub mod kind {
    pub const SIZES: u8 = 0x01;
    pub const ARRAY: u8 = 0x02;
    pub const SIGNATURE: u8 = 0x03;
    pub const CONST: u8 = 0x10;
    pub const OP: u8 = 0x11;
    pub const SELECT: u8 = 0x12;
    pub const LOAD: u8 = 0x13;
    pub const STORE: u8 = 0x14;
    pub const INIT: u8 = 0x15;
    pub const UPDATE: u8 = 0x16;
    pub const PROTECT: u8 = 0x17;
    pub const CALL: u8 = 0x18;
    pub const LOAD_FIXED: u8 = 0x1b;
    pub const STORE_FIXED: u8 = 0x1c;
    pub const IF: u8 = 0x20;
    pub const ELSE: u8 = 0x21;
    pub const ENDIF: u8 = 0x22;
    pub const WHILE: u8 = 0x23;
    pub const ENDWHILE: u8 = 0x24;
    pub const RETURN: u8 = 0x25;
}

pub const SIZES_LENGTH: usize = 4;
pub const ARRAY_LENGTH: usize = 3;
pub const SIGNATURE_LENGTH: usize = 17;
pub const CALL_LENGTH: usize = 3;
pub const ELSE_LENGTH: usize = 3;
pub const ENDIF_LENGTH: usize = 1;
pub const ENDWHILE_LENGTH: usize = 3;

/// Length of a whole record, kind byte included ("a body whose length the kind
/// fixes"); `None` for an unknown kind.
pub fn record_length(kind: u8) -> Option<usize> {
    Some(match kind {
        kind::SIZES => SIZES_LENGTH,
        kind::ARRAY => ARRAY_LENGTH,
        kind::SIGNATURE => SIGNATURE_LENGTH,
        kind::CONST => 6,
        kind::OP | kind::SELECT => 5,
        kind::LOAD | kind::STORE => 4,
        kind::INIT => 1,
        kind::UPDATE | kind::PROTECT => 3,
        kind::CALL => CALL_LENGTH,
        kind::LOAD_FIXED | kind::STORE_FIXED => 5,
        kind::IF => 4,
        kind::ELSE => ELSE_LENGTH,
        kind::ENDIF => ENDIF_LENGTH,
        kind::WHILE => 11,
        kind::ENDWHILE => ENDWHILE_LENGTH,
        kind::RETURN => 1,
        _ => return None,
    })
}

/// A number and place of 01's table "Numbers given back".
#[derive(Clone, Copy, Debug, PartialEq, Eq)]
pub struct Fault {
    pub number: u8,
    pub place: usize,
}

#[inline]
pub(crate) fn fault(number: u8, place: usize) -> Fault {
    Fault { number, place }
}

/// A "packed environment, 7 bytes": the status byte, then 48 bits of levels,
/// "two bits per register, register 0 lowest; 2 bytes for arrays likewise". Low
/// byte first the six level bytes are one number: registers in bits 0 to 31,
/// arrays in bits 32 to 47.
#[derive(Clone, Copy, Debug, Default, PartialEq, Eq)]
pub struct Packed {
    pub status: u8,
    pub levels: u64,
}

impl Packed {
    pub const LENGTH: usize = 7;

    #[inline]
    pub fn from_bytes(bytes: [u8; 7]) -> Packed {
        let [status, a, b, c, d, e, f] = bytes;
        Packed { status, levels: u64::from_le_bytes([a, b, c, d, e, f, 0, 0]) }
    }

    pub fn to_bytes(self) -> [u8; 7] {
        let [a, b, c, d, e, f, _, _] = self.levels.to_le_bytes();
        [self.status, a, b, c, d, e, f]
    }

    /// Status "0 unknown, 1 updated", no level 3, "unused slots are 0".
    #[inline]
    fn in_range(self, used: u64) -> bool {
        const LOW: u64 = 0x5555_5555_5555;
        self.status <= 1 && self.levels & !used == 0 && self.levels & (self.levels >> 1) & LOW == 0
    }
}

/// The two-bit slots that so many registers and arrays use.
fn used_slots(registers: u8, arrays: u8) -> u64 {
    ((1u64 << (2 * registers)) - 1) | (((1u64 << (2 * arrays)) - 1) << 32)
}

/// A decoded instruction: "one of the listed kinds carrying its own fields".
/// Fields are as they stand in the bytes; [`read`] has looked at their ranges.
#[derive(Clone, Copy, Debug, PartialEq, Eq)]
pub enum Instr {
    Const { dest: u8, value: u32 },
    Op { dest: u8, op: u8, left: u8, right: u8 },
    Select { dest: u8, cond: u8, yes: u8, no: u8 },
    Load { dest: u8, array: u8, index: u8 },
    Store { array: u8, index: u8, source: u8 },
    Init,
    Update { register: u8, sense: u8 },
    Protect { dest: u8, source: u8 },
    Call { function: u8, mark: u8 },
    LoadFixed { dest: u8, array: u8, index: u16 },
    StoreFixed { array: u8, index: u16, source: u8 },
    If { register: u8, else_place: u16 },
    Else { endif_place: u16 },
    EndIf,
    While { register: u8, end_place: u16, env: Packed },
    EndWhile { while_place: u16 },
    Return,
}

/// The first `N` bytes, if there are so many.
#[inline]
fn take<const N: usize>(bytes: &[u8]) -> Option<[u8; N]> {
    bytes.get(..N)?.try_into().ok()
}

impl Instr {
    /// The instruction whose record starts `bytes`, and the record's length.
    /// `None` if the kind is no instruction's or the record is cut.
    #[inline(always)]
    pub fn decode(bytes: &[u8]) -> Option<(Instr, usize)> {
        let (&kind, body) = bytes.split_first()?;
        Some(match kind {
            kind::CONST => {
                let [dest, a, b, c, d] = take(body)?;
                let value = u32::from_le_bytes([a, b, c, d]);
                (Instr::Const { dest, value }, 6)
            }
            kind::OP => {
                let [dest, op, left, right] = take(body)?;
                (Instr::Op { dest, op, left, right }, 5)
            }
            kind::SELECT => {
                let [dest, cond, yes, no] = take(body)?;
                (Instr::Select { dest, cond, yes, no }, 5)
            }
            kind::LOAD => {
                let [dest, array, index] = take(body)?;
                (Instr::Load { dest, array, index }, 4)
            }
            kind::STORE => {
                let [array, index, source] = take(body)?;
                (Instr::Store { array, index, source }, 4)
            }
            kind::INIT => (Instr::Init, 1),
            kind::UPDATE => {
                let [register, sense] = take(body)?;
                (Instr::Update { register, sense }, 3)
            }
            kind::PROTECT => {
                let [dest, source] = take(body)?;
                (Instr::Protect { dest, source }, 3)
            }
            kind::CALL => {
                let [function, mark] = take(body)?;
                (Instr::Call { function, mark }, CALL_LENGTH)
            }
            kind::LOAD_FIXED => {
                let [dest, array, a, b] = take(body)?;
                (Instr::LoadFixed { dest, array, index: u16::from_le_bytes([a, b]) }, 5)
            }
            kind::STORE_FIXED => {
                let [array, a, b, source] = take(body)?;
                (Instr::StoreFixed { array, index: u16::from_le_bytes([a, b]), source }, 5)
            }
            kind::IF => {
                let [register, a, b] = take(body)?;
                let else_place = u16::from_le_bytes([a, b]);
                (Instr::If { register, else_place }, 4)
            }
            kind::ELSE => {
                let endif_place = u16::from_le_bytes(take(body)?);
                (Instr::Else { endif_place }, ELSE_LENGTH)
            }
            kind::ENDIF => (Instr::EndIf, ENDIF_LENGTH),
            kind::WHILE => {
                let [register, p, q, a, b, c, d, e, f, g] = take(body)?;
                let end_place = u16::from_le_bytes([p, q]);
                let env = Packed::from_bytes([a, b, c, d, e, f, g]);
                (Instr::While { register, end_place, env }, 11)
            }
            kind::ENDWHILE => {
                let while_place = u16::from_le_bytes(take(body)?);
                (Instr::EndWhile { while_place }, ENDWHILE_LENGTH)
            }
            kind::RETURN => (Instr::Return, 1),
            _ => return None,
        })
    }

    /// Appends the record's bytes.
    pub fn encode(&self, out: &mut Vec<u8>) {
        match *self {
            Instr::Const { dest, value } => {
                out.extend_from_slice(&[kind::CONST, dest]);
                out.extend_from_slice(&value.to_le_bytes());
            }
            Instr::Op { dest, op, left, right } => {
                out.extend_from_slice(&[kind::OP, dest, op, left, right]);
            }
            Instr::Select { dest, cond, yes, no } => {
                out.extend_from_slice(&[kind::SELECT, dest, cond, yes, no]);
            }
            Instr::Load { dest, array, index } => {
                out.extend_from_slice(&[kind::LOAD, dest, array, index]);
            }
            Instr::Store { array, index, source } => {
                out.extend_from_slice(&[kind::STORE, array, index, source]);
            }
            Instr::Init => out.push(kind::INIT),
            Instr::Update { register, sense } => {
                out.extend_from_slice(&[kind::UPDATE, register, sense]);
            }
            Instr::Protect { dest, source } => {
                out.extend_from_slice(&[kind::PROTECT, dest, source]);
            }
            Instr::Call { function, mark } => {
                out.extend_from_slice(&[kind::CALL, function, mark]);
            }
            Instr::LoadFixed { dest, array, index } => {
                let [a, b] = index.to_le_bytes();
                out.extend_from_slice(&[kind::LOAD_FIXED, dest, array, a, b]);
            }
            Instr::StoreFixed { array, index, source } => {
                let [a, b] = index.to_le_bytes();
                out.extend_from_slice(&[kind::STORE_FIXED, array, a, b, source]);
            }
            Instr::If { register, else_place } => {
                out.extend_from_slice(&[kind::IF, register]);
                out.extend_from_slice(&else_place.to_le_bytes());
            }
            Instr::Else { endif_place } => {
                out.push(kind::ELSE);
                out.extend_from_slice(&endif_place.to_le_bytes());
            }
            Instr::EndIf => out.push(kind::ENDIF),
            Instr::While { register, end_place, env } => {
                out.extend_from_slice(&[kind::WHILE, register]);
                out.extend_from_slice(&end_place.to_le_bytes());
                out.extend_from_slice(&env.to_bytes());
            }
            Instr::EndWhile { while_place } => {
                out.push(kind::ENDWHILE);
                out.extend_from_slice(&while_place.to_le_bytes());
            }
            Instr::Return => out.push(kind::RETURN),
        }
    }
}

/// A table that reads: only [`read`] makes one.
#[derive(Clone, Copy, Debug)]
pub struct Table<'a> {
    bytes: &'a [u8],
    registers: u8,
    arrays: u8,
    functions: u8,
}

impl<'a> Table<'a> {
    pub fn bytes(&self) -> &'a [u8] {
        self.bytes
    }

    pub fn registers(&self) -> usize {
        usize::from(self.registers)
    }

    pub fn arrays(&self) -> usize {
        usize::from(self.arrays)
    }

    pub fn functions(&self) -> usize {
        usize::from(self.functions)
    }

    /// "The last function is the entry."
    pub fn entry(&self) -> usize {
        self.functions() - 1
    }

    /// Words of one array.
    #[inline]
    pub fn words(&self, array: usize) -> usize {
        let at = SIZES_LENGTH + array * ARRAY_LENGTH;
        usize::from(self.bytes[at + 1]) | usize::from(self.bytes[at + 2]) << 8
    }

    /// Words of all arrays together.
    pub fn memory(&self) -> usize {
        (0..self.arrays()).map(|array| self.words(array)).sum()
    }

    /// Place of a function's signature record.
    #[inline]
    pub fn signature(&self, function: usize) -> usize {
        SIZES_LENGTH + self.arrays() * ARRAY_LENGTH + function * SIGNATURE_LENGTH
    }

    /// The start place that a function's signature names.
    #[inline]
    pub fn start(&self, function: usize) -> usize {
        let at = self.signature(function);
        usize::from(self.bytes[at + 1]) | usize::from(self.bytes[at + 2]) << 8
    }

    #[inline]
    fn packed(&self, at: usize) -> Packed {
        let bytes = take(&self.bytes[at..]).expect("signatures are whole");
        Packed::from_bytes(bytes)
    }

    /// A function's in-environment.
    #[inline]
    pub fn input(&self, function: usize) -> Packed {
        self.packed(self.signature(function) + 3)
    }

    /// A function's out-environment.
    #[inline]
    pub fn output(&self, function: usize) -> Packed {
        self.packed(self.signature(function) + 3 + Packed::LENGTH)
    }

    /// Place of the first function's first record, right after the signatures.
    pub fn code(&self) -> usize {
        self.signature(self.functions())
    }

    /// The instruction at a place where a record of a function starts, and the
    /// record's length.
    #[inline(always)]
    pub fn instr(&self, place: usize) -> (Instr, usize) {
        Instr::decode(&self.bytes[place..]).expect("a record starts at the place")
    }

    /// The function that holds a place of the code.
    pub fn function_at(&self, place: usize) -> usize {
        let mut function = self.entry();
        while function > 0 && self.start(function) > place {
            function -= 1;
        }
        function
    }

    /// Every instruction in table order with its place.
    pub fn instrs(&self) -> impl Iterator<Item = (usize, Instr)> + 'a {
        let table = *self;
        let mut next = table.code();
        std::iter::from_fn(move || {
            let place = next;
            let (instr, length) = Instr::decode(&table.bytes[place..])?;
            next += length;
            Some((place, instr))
        })
    }
}

/// A header record of the one kind that is due at a place: faults 3, then 2.
#[inline]
fn due<const N: usize>(bytes: &[u8], place: usize, kind: u8) -> Result<[u8; N], Fault> {
    match bytes.get(place) {
        Some(&met) if met != kind => Err(fault(3, place)),
        Some(_) => take(&bytes[place..]).ok_or_else(|| fault(2, place)),
        None => Err(fault(2, place)),
    }
}

/// Reads a table. "Number 1 first, then a forward reading (2 to 9) that ends at
/// the first fault. In a record: 3, 2, 4, 5, 6, 7, 8."
pub fn read(bytes: &[u8]) -> Result<Table<'_>, Fault> {
    if bytes.len() > MAX_BYTES {
        return Err(fault(1, 0));
    }

    // "Order: sizes, the arrays, the signatures, then the functions in order"
    let [_, registers, arrays, functions] = due::<SIZES_LENGTH>(bytes, 0, kind::SIZES)?;
    if !(1..=16).contains(&registers) || arrays > 8 || !(1..=32).contains(&functions) {
        return Err(fault(4, 0));
    }
    let table = Table { bytes, registers, arrays, functions };
    let used = used_slots(registers, arrays);

    for array in 0..table.arrays() {
        let place = SIZES_LENGTH + array * ARRAY_LENGTH;
        let [_, a, b] = due::<ARRAY_LENGTH>(bytes, place, kind::ARRAY)?;
        if !(1..=1024).contains(&u16::from_le_bytes([a, b])) {
            return Err(fault(4, place));
        }
    }

    for function in 0..table.functions() {
        let place = table.signature(function);
        due::<SIGNATURE_LENGTH>(bytes, place, kind::SIGNATURE)?;
        let input = table.input(function);
        if !input.in_range(used) || !table.output(function).in_range(used) {
            return Err(fault(4, place));
        }
        // "entry's in status not unknown"; the start place is met, and
        // compared, only at the function's first record.
        if function == table.entry() && input.status != 0 {
            return Err(fault(8, place));
        }
    }

    let mut place = table.code();
    for function in 0..table.functions() {
        place = read_function(&table, function, place, used)?;
    }
    // "bytes after the last RETURN"
    if place < bytes.len() {
        return Err(fault(9, place));
    }
    Ok(table)
}

/// What the innermost open block of a function still awaits.
#[derive(Clone, Copy)]
enum Open {
    /// No block is open: the function's own RETURN.
    Function,
    /// The first block of an IF: the ELSE that the IF names.
    First { else_place: u16 },
    /// The second block: the ENDIF that the ELSE names.
    Second { endif_place: u16 },
    /// A loop body: the ENDWHILE that the WHILE at `while_place` names.
    Body { while_place: usize, end_place: u16 },
}

/// Reads one function from its first record on; gives the place after its
/// RETURN.
///
/// One `match` on the kind does all of a record's tests, each arm in the order
/// 3, 2, 4, 5, 6, 7: a second one would be a second jump that no processor
/// foresees.
fn read_function(
    table: &Table<'_>,
    function: usize,
    first: usize,
    used: u64,
) -> Result<usize, Fault> {
    let bytes = table.bytes;
    let register = |number: u8| number < table.registers;
    let array = |number: u8| number < table.arrays;
    // 02, order 1: "index not below the array's words, 4"; only an array that
    // there is has words.
    let word = |number: u8, a: u8, b: u8| {
        array(number) && usize::from(u16::from_le_bytes([a, b])) < table.words(usize::from(number))
    };
    let mut open = [Open::Function; MAX_NESTING + 1];
    let mut depth = 0;
    let mut place = first;
    // "named place differs from the one met", for the start place, is tested at
    // the function's first record, between its own 4 and 7.
    let misplaced = table.start(function) != first;
    loop {
        let (&kind, body) = match bytes[place..].split_first() {
            Some(parts) => parts,
            None => return Err(fault(2, place)),
        };
        let cut = || fault(2, place);
        let need = |holds: bool, number: u8| {
            if holds {
                Ok(())
            } else {
                Err(fault(number, place))
            }
        };
        let length = match kind {
            kind::CONST => {
                let [dest, _, _, _, _] = take(body).ok_or_else(cut)?;
                need(register(dest), 4)?;
                6
            }
            kind::OP => {
                let [dest, op, left, right] = take(body).ok_or_else(cut)?;
                need(register(dest) & (op <= 7) & register(left) & register(right), 4)?;
                5
            }
            kind::SELECT => {
                let [dest, cond, yes, no] = take(body).ok_or_else(cut)?;
                need(register(dest) & register(cond) & register(yes) & register(no), 4)?;
                5
            }
            kind::LOAD => {
                let [dest, of, index] = take(body).ok_or_else(cut)?;
                need(register(dest) & array(of) & register(index), 4)?;
                4
            }
            kind::STORE => {
                let [of, index, source] = take(body).ok_or_else(cut)?;
                need(array(of) & register(index) & register(source), 4)?;
                4
            }
            kind::INIT => 1,
            kind::UPDATE => {
                let [of, sense] = take(body).ok_or_else(cut)?;
                need(register(of) & (sense <= 1), 4)?;
                3
            }
            kind::PROTECT => {
                let [dest, source] = take(body).ok_or_else(cut)?;
                need(register(dest) & register(source), 4)?;
                3
            }
            kind::CALL => {
                let [callee, mark] = take(body).ok_or_else(cut)?;
                need((callee < table.functions) & (mark <= 1), 4)?;
                need(!misplaced, 5)?;
                need(usize::from(callee) < function, 7)?;
                CALL_LENGTH
            }
            kind::LOAD_FIXED => {
                let [dest, of, a, b] = take(body).ok_or_else(cut)?;
                need(register(dest) & word(of, a, b), 4)?;
                5
            }
            kind::STORE_FIXED => {
                let [of, a, b, source] = take(body).ok_or_else(cut)?;
                need(word(of, a, b) & register(source), 4)?;
                5
            }
            kind::IF => {
                let [of, a, b] = take(body).ok_or_else(cut)?;
                need(register(of), 4)?;
                need(depth < MAX_NESTING, 6)?;
                depth += 1;
                open[depth] = Open::First { else_place: u16::from_le_bytes([a, b]) };
                4
            }
            kind::ELSE => {
                let else_place = match open[depth] {
                    Open::First { else_place } => else_place,
                    _ => return Err(fault(3, place)),
                };
                let endif_place = u16::from_le_bytes(take(body).ok_or_else(cut)?);
                need(usize::from(else_place) == place, 5)?;
                open[depth] = Open::Second { endif_place };
                ELSE_LENGTH
            }
            kind::ENDIF => {
                let endif_place = match open[depth] {
                    Open::Second { endif_place } => endif_place,
                    _ => return Err(fault(3, place)),
                };
                need(usize::from(endif_place) == place, 5)?;
                depth -= 1;
                ENDIF_LENGTH
            }
            kind::WHILE => {
                let [of, p, q, a, b, c, d, e, f, g] = take(body).ok_or_else(cut)?;
                let env = Packed::from_bytes([a, b, c, d, e, f, g]);
                need(register(of) & env.in_range(used), 4)?;
                need(depth < MAX_NESTING, 6)?;
                depth += 1;
                open[depth] =
                    Open::Body { while_place: place, end_place: u16::from_le_bytes([p, q]) };
                11
            }
            kind::ENDWHILE => {
                let (while_place, end_place) = match open[depth] {
                    Open::Body { while_place, end_place } => (while_place, end_place),
                    _ => return Err(fault(3, place)),
                };
                let named = usize::from(u16::from_le_bytes(take(body).ok_or_else(cut)?));
                need(usize::from(end_place) == place && named == while_place, 5)?;
                depth -= 1;
                ENDWHILE_LENGTH
            }
            // "Each ends at its only RETURN, outside all blocks."
            kind::RETURN => {
                need(depth == 0, 3)?;
                need(!misplaced, 5)?;
                return Ok(place + 1);
            }
            // 3, "kind unknown or not allowed here"
            _ => return Err(fault(3, place)),
        };
        // The other arms of a first record: 6 cannot be at the outermost depth.
        need(!misplaced, 5)?;
        place += length;
    }
}
