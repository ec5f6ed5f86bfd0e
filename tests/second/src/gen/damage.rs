//! Tables damaged so that they fail in reading.

use super::author::Shape;
use super::rng::Rng;
use super::tables::{good_of, padded, spoiled};
use crate::table::{self, kind, record_length, ARRAY_LENGTH, MAX_BYTES, SIZES_LENGTH};

/// Every record of a table that reads: place and kind.
pub fn records(table: &[u8]) -> Vec<(usize, u8)> {
    let mut all = Vec::new();
    let mut place = 0;
    while place < table.len() {
        all.push((place, table[place]));
        place += record_length(table[place]).expect("the table reads");
    }
    all
}

/// A good table damaged so that the fault is `number` from 1 to 9, and the
/// place of that fault.
pub fn damaged(number: u8, seed: u64) -> (Vec<u8>, usize) {
    if number == 6 {
        return spoiled(6, seed);
    }
    let mut rng = Rng::new(seed ^ u64::from(number) << 48);
    loop {
        let shape = Shape::any(&mut rng);
        let mut table = good_of(shape, &mut rng);
        if let Some(place) = damage(&mut table, number, &mut rng) {
            return (table, place);
        }
    }
}

pub(super) fn set16(bytes: &mut [u8], at: usize, value: u16) {
    bytes[at..at + 2].copy_from_slice(&value.to_le_bytes());
}

/// Words of an array, by the table's bytes; 0 past their end, where a table that is damaged already may point.
pub(super) fn words_of(bytes: &[u8], array: u8) -> u16 {
    let at = SIZES_LENGTH + usize::from(array) * ARRAY_LENGTH;
    let byte = |at: usize| bytes.get(at).copied().unwrap_or(0);
    u16::from_le_bytes([byte(at + 1), byte(at + 2)])
}

/// An index that is not below the array's words.
fn no_index(bytes: &[u8], array: u8, rng: &mut Rng) -> u16 {
    let words = words_of(bytes, array);
    match rng.below(8) {
        0..=3 => words,
        4 => words.saturating_add(1),
        5 => u16::MAX,
        // The low byte alone would do.
        6 => words.max(256) & 0xff00 | 0x8000,
        _ => rng.between(usize::from(words), usize::from(u16::MAX)) as u16,
    }
}

/// A number that is out of range when all under `end` are in range.
fn over(end: u8, rng: &mut Rng) -> u8 {
    match rng.below(2) {
        0 => end,
        _ => rng.between(usize::from(end), 255) as u8,
    }
}

/// Damages a table whose records are of known kinds, so that the fault is `number` if there was
/// none before; gives its place. `None` if the record that came up does not lend itself to it.
pub(super) fn damage(bytes: &mut Vec<u8>, number: u8, rng: &mut Rng) -> Option<usize> {
    let all = records(bytes);
    let (mut place, mut kind) = rng.pick(&all);
    if number == 4 && rng.chance(1, 6) {
        // Rather an access at a fixed place.
        let fixed: Vec<(usize, u8)> = all
            .iter()
            .copied()
            .filter(|&(_, kind)| matches!(kind, kind::LOAD_FIXED | kind::STORE_FIXED))
            .collect();
        if !fixed.is_empty() {
            let (at, of) = rng.pick(&fixed);
            place = at;
            kind = of;
        }
    }
    match number {
        1 => {
            lengthen(bytes, rng);
            Some(0)
        }
        2 => {
            let length = rng.below(bytes.len());
            bytes.truncate(length);
            let due = all.iter().rev().find(|&&(start, _)| start <= length);
            due.map(|&(start, _)| start)
        }
        3 => {
            bytes[place] = wrong_kind(bytes, place, rng);
            Some(place)
        }
        4 => damage_field(bytes, place, kind, rng),
        5 => damage_place(bytes, place, kind, &all, rng),
        7 => damage_callee(bytes, place, kind, rng),
        8 => {
            let read = table::read(bytes).ok()?;
            let signature = read.signature(read.entry());
            bytes[signature + 3] = 1;
            Some(signature)
        }
        9 => append(bytes, rng),
        _ => None,
    }
}

/// 1, "table over 32,768 bytes".
fn lengthen(bytes: &mut Vec<u8>, rng: &mut Rng) {
    let length = MAX_BYTES + rng.between(1, 40);
    if rng.chance(1, 2) {
        *bytes = padded(std::mem::take(bytes), length);
    } else {
        bytes.resize(length, 0);
    }
}

/// 4, "field (not a place), level or status out of range".
fn damage_field(bytes: &mut [u8], place: usize, kind: u8, rng: &mut Rng) -> Option<usize> {
    match kind {
        kind::ARRAY => set16(bytes, place + 1, rng.pick(&[0, 1025, 2048, 65_535])),
        kind::LOAD_FIXED | kind::STORE_FIXED => damage_fixed(bytes, place, rng),
        _ => {
            let (at, value) = wrong_field(bytes, place, kind, rng)?;
            bytes[at] = value;
        }
    }
    Some(place)
}

/// Offset and value of a byte that puts a field of the record at `place` out of range.
fn wrong_field(bytes: &[u8], place: usize, kind: u8, rng: &mut Rng) -> Option<(usize, u8)> {
    let (registers, arrays, functions) = (bytes[1], bytes[2], bytes[3]);
    let (at, value) = match kind {
        kind::SIZES => match rng.below(3) {
            0 => (1, rng.pick(&[0, 17, 255])),
            1 => (2, rng.pick(&[9, 255])),
            _ => (3, rng.pick(&[0, 33, 255])),
        },
        kind::SIGNATURE => {
            let at = rng.pick(&[3, 10]);
            return Some(damage_env(bytes, place + at, rng));
        }
        kind::CONST | kind::IF => (1, over(registers, rng)),
        kind::OP => match rng.pick(&[1, 2, 3, 4]) {
            2 => (2, over(8, rng)),
            at => (at, over(registers, rng)),
        },
        kind::SELECT => (rng.between(1, 4), over(registers, rng)),
        kind::LOAD => match rng.between(1, 3) {
            2 => (2, over(arrays, rng)),
            at => (at, over(registers, rng)),
        },
        kind::STORE => match rng.between(1, 3) {
            1 => (1, over(arrays, rng)),
            at => (at, over(registers, rng)),
        },
        kind::UPDATE => match rng.below(2) {
            0 => (1, over(registers, rng)),
            _ => (2, over(2, rng)),
        },
        kind::PROTECT => (rng.between(1, 2), over(registers, rng)),
        kind::CALL => match rng.below(2) {
            0 => (1, over(functions, rng)),
            _ => (2, over(2, rng)),
        },
        kind::WHILE => match rng.below(3) {
            0 => (1, over(registers, rng)),
            _ => return Some(damage_env(bytes, place + 4, rng)),
        },
        _ => return None,
    };
    Some((place + at, value))
}

/// 4 in an access at a fixed place.
fn damage_fixed(bytes: &mut [u8], place: usize, rng: &mut Rng) {
    let (registers, arrays) = (bytes[1], bytes[2]);
    let load = bytes[place] == kind::LOAD_FIXED;
    match rng.below(4) {
        0 => bytes[place + 1] = over(if load { registers } else { arrays }, rng),
        1 if load => bytes[place + 2] = over(arrays, rng),
        1 => bytes[place + 4] = over(registers, rng),
        _ => {
            let array = place + if load { 2 } else { 1 };
            let index = no_index(bytes, bytes[array], rng);
            set16(bytes, array + 1, index);
        }
    }
}

/// 5, "named place differs from the one met".
fn damage_place(
    bytes: &mut [u8],
    place: usize,
    kind: u8,
    all: &[(usize, u8)],
    rng: &mut Rng,
) -> Option<usize> {
    let at = match kind {
        kind::SIGNATURE | kind::ELSE | kind::ENDWHILE => place + 1,
        kind::IF | kind::WHILE => place + 2,
        _ => return None,
    };
    let named = u16::from_le_bytes([bytes[at], bytes[at + 1]]);
    let wrong = match rng.below(4) {
        0 => named.wrapping_add(1),
        1 => named.wrapping_sub(1),
        2 => rng.pick(all).0 as u16,
        _ => rng.next() as u16,
    };
    if wrong == named {
        return None;
    }
    set16(bytes, at, wrong);
    // "the later record of the two": ENDWHILE is it already, the others named it.
    Some(if kind == kind::ENDWHILE { place } else { usize::from(named) })
}

/// 7, "CALL not of a lower function", in place of another record of three bytes.
fn damage_callee(bytes: &mut [u8], place: usize, kind: u8, rng: &mut Rng) -> Option<usize> {
    let (code, here) = {
        let read = table::read(bytes).ok()?;
        (read.code(), read.function_at(place))
    };
    if place < code || record_length(kind) != Some(3) || kind > kind::CALL {
        return None;
    }
    let functions = usize::from(bytes[3]);
    let callee = rng.between(here, functions - 1) as u8;
    let mark = rng.below(2) as u8;
    bytes[place..place + 3].copy_from_slice(&[kind::CALL, callee, mark]);
    Some(place)
}

/// 9, "bytes after the last RETURN".
fn append(bytes: &mut Vec<u8>, rng: &mut Rng) -> Option<usize> {
    let length = bytes.len();
    for _ in 0..rng.between(1, 9) {
        let byte = match rng.below(2) {
            0 => rng.byte(),
            _ => rng.pick(&[kind::INIT, kind::RETURN, 0]),
        };
        bytes.push(byte);
    }
    if bytes.len() > MAX_BYTES {
        return None;
    }
    Some(length)
}

/// Offset and value of a byte that puts a packed environment out of range.
fn damage_env(bytes: &[u8], at: usize, rng: &mut Rng) -> (usize, u8) {
    if rng.chance(1, 4) {
        return (at, rng.between(2, 255) as u8);
    }
    let slot = rng.below(24);
    let used =
        if slot < 16 { slot < usize::from(bytes[1]) } else { slot - 16 < usize::from(bytes[2]) };
    let level = if used { 3 } else { rng.between(1, 3) as u8 };
    let offset = at + 1 + slot / 4;
    let shift = 2 * (slot % 4);
    let value = bytes[offset] & !(3 << shift) | level << shift;
    (offset, value)
}

/// A kind that is unknown, or not allowed where this record of a good table is.
fn wrong_kind(bytes: &[u8], place: usize, rng: &mut Rng) -> u8 {
    let known = [
        kind::SIZES,
        kind::ARRAY,
        kind::SIGNATURE,
        kind::ELSE,
        kind::ENDIF,
        kind::ENDWHILE,
        kind::RETURN,
    ];
    let code = table::read(bytes).map_or(0, |table| table.code());
    loop {
        let kind = match rng.below(6) {
            0 => rng.byte(),
            // Next to known ones.
            1 => rng.pick(&[0x00, 0x04, 0x0f, 0x19, 0x1a, 0x1d, 0x1f, 0x26]),
            _ => rng.pick(&known),
        };
        if record_length(kind).is_none() {
            return kind;
        }
        if place < code {
            if kind != bytes[place] {
                return kind;
            }
            continue;
        }
        // What closes the innermost block that is open before the record.
        let mut closers = vec![kind::RETURN];
        let mut at = code;
        while at < place {
            match bytes[at] {
                kind::IF => closers.push(kind::ELSE),
                kind::WHILE => closers.push(kind::ENDWHILE),
                kind::ELSE => *closers.last_mut().expect("open") = kind::ENDIF,
                kind::ENDIF | kind::ENDWHILE => {
                    closers.pop();
                }
                _ => {}
            }
            at += record_length(bytes[at]).expect("the table reads");
        }
        let closer = closers[closers.len() - 1];
        let header = kind <= kind::SIGNATURE;
        let closes = matches!(kind, kind::ELSE | kind::ENDIF | kind::ENDWHILE | kind::RETURN);
        if header || closes && kind != closer {
            return kind;
        }
    }
}
