//! Tables with fields changed within their ranges.

use super::author::Shape;
use super::damage::{records, set16, words_of};
use super::rng::Rng;
use super::tables::good_of;
use crate::table::{self, kind};

/// A good table with a few fields, levels or kinds changed within their ranges:
/// it still reads, and may or may not type.
pub fn altered(seed: u64) -> Vec<u8> {
    let mut rng = Rng::new(seed ^ 0x616c_7465);
    let shape = if rng.chance(2, 3) { Shape::SMALL } else { Shape::MIDDLE };
    let mut bytes = good_of(shape, &mut rng);
    let all = records(&bytes);
    for _ in 0..rng.between(1, 4) {
        let (place, _) = rng.pick(&all);
        alter(&mut bytes, place, &mut rng);
    }
    bytes
}

/// Changes one thing in the record at `place`.
fn alter(bytes: &mut [u8], place: usize, rng: &mut Rng) {
    let (here, entry) = {
        let table = table::read(bytes).expect("altered tables read");
        (table.function_at(place), table.signature(table.entry()))
    };
    let register = rng.below(usize::from(bytes[1])) as u8;
    match bytes[place] {
        kind::SIGNATURE => {
            let at = rng.pick(&[3, 10]);
            if rng.chance(1, 4) && (place, at) != (entry, 3) {
                bytes[place + at] ^= 1;
            } else {
                alter_level(bytes, place + at, rng);
            }
        }
        kind::CONST => bytes[place + 1] = register,
        kind::OP if bytes[2] > 0 && rng.chance(1, 6) => {
            let fixed = random_fixed(bytes, rng);
            bytes[place..place + 5].copy_from_slice(&fixed);
        }
        kind::OP => match rng.between(1, 4) {
            2 => bytes[place + 2] = rng.below(8) as u8,
            at => bytes[place + at] = register,
        },
        kind::LOAD_FIXED | kind::STORE_FIXED => alter_fixed(bytes, place, register, rng),
        kind::SELECT => bytes[place + rng.between(1, 4)] = register,
        kind::LOAD | kind::STORE => alter_access(bytes, place, register, rng),
        kind::UPDATE | kind::PROTECT | kind::CALL => {
            alter_short(bytes, place, register, here, rng);
        }
        kind::IF => bytes[place + 1] = register,
        kind::WHILE => match rng.below(4) {
            0 => bytes[place + 1] = register,
            1 => bytes[place + 4] ^= 1,
            _ => alter_level(bytes, place + 4, rng),
        },
        _ => {}
    }
}

/// Another register, array or index of an access at a fixed place, or another such access.
fn alter_fixed(bytes: &mut [u8], place: usize, register: u8, rng: &mut Rng) {
    // Where the array, the index and the register are.
    let (of, index, at) = match bytes[place] {
        kind::LOAD_FIXED => (2, 3, 1),
        _ => (1, 2, 4),
    };
    match rng.below(4) {
        0 => bytes[place + at] = register,
        1 => {
            let array = rng.below(usize::from(bytes[2])) as u8;
            let words = words_of(bytes, array);
            let asked = u16::from_le_bytes([bytes[place + index], bytes[place + index + 1]]);
            bytes[place + of] = array;
            set16(bytes, place + index, asked % words);
        }
        2 => {
            let words = words_of(bytes, bytes[place + of]);
            set16(bytes, place + index, rng.below(usize::from(words)) as u16);
        }
        _ => {
            let fixed = random_fixed(bytes, rng);
            bytes[place..place + 5].copy_from_slice(&fixed);
        }
    }
}

/// Another register or array of a LOAD or STORE, or the one for the other.
fn alter_access(bytes: &mut [u8], place: usize, register: u8, rng: &mut Rng) {
    let of = match bytes[place] {
        kind::LOAD => 2,
        _ => 1,
    };
    match rng.between(1, 4) {
        4 => {
            let fields = [bytes[place + of], bytes[place + 3], register];
            if of == 2 {
                bytes[place] = kind::STORE;
                bytes[place + 1..place + 4].copy_from_slice(&fields);
            } else {
                let [array, index, dest] = fields;
                bytes[place] = kind::LOAD;
                bytes[place + 1..place + 4].copy_from_slice(&[dest, array, index]);
            }
        }
        at if at == of => bytes[place + at] = rng.below(usize::from(bytes[2])) as u8,
        at => bytes[place + at] = register,
    }
}

/// An UPDATE, PROTECT or CALL in place of one of these, in the function `here`.
fn alter_short(bytes: &mut [u8], place: usize, register: u8, here: usize, rng: &mut Rng) {
    let other = rng.below(usize::from(bytes[1])) as u8;
    let bit = rng.below(2) as u8;
    let record = match rng.below(3) {
        0 => [kind::UPDATE, register, bit],
        1 => [kind::PROTECT, register, other],
        _ if here > 0 => [kind::CALL, rng.below(here) as u8, bit],
        _ => return,
    };
    bytes[place..place + 3].copy_from_slice(&record);
}

/// The record of some access at a fixed place; the table has an array.
fn random_fixed(bytes: &[u8], rng: &mut Rng) -> [u8; 5] {
    let register = rng.below(usize::from(bytes[1])) as u8;
    let array = rng.below(usize::from(bytes[2])) as u8;
    let [a, b] = (rng.below(usize::from(words_of(bytes, array))) as u16).to_le_bytes();
    if rng.chance(1, 2) {
        [kind::LOAD_FIXED, register, array, a, b]
    } else {
        [kind::STORE_FIXED, array, a, b, register]
    }
}

/// Another level for one used slot of the packed environment at `at`.
fn alter_level(bytes: &mut [u8], at: usize, rng: &mut Rng) {
    let registers = usize::from(bytes[1]);
    let slot = rng.below(registers + usize::from(bytes[2]));
    let slot = if slot < registers { slot } else { slot - registers + 16 };
    let shift = 2 * (slot % 4);
    let level = rng.below(3) as u8;
    let byte = &mut bytes[at + 1 + slot / 4];
    *byte = *byte & !(3 << shift) | level << shift;
}
