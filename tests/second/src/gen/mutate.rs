//! Tables with bytes changed by chance, and bytes by chance.

use super::author::Shape;
use super::damage::damage;
use super::rng::Rng;
use super::tables::{good_of, spoiled};
use crate::table::{kind, Packed, ARRAY_LENGTH, SIGNATURE_LENGTH, SIZES_LENGTH};

/// A good table with a few bytes changed, put in, left out or copied.
pub fn mutated(seed: u64) -> Vec<u8> {
    let mut rng = Rng::new(seed ^ 0x6d75_7461);
    let shape = if rng.chance(4, 5) { Shape::SMALL } else { Shape::MIDDLE };
    let mut bytes = match rng.below(4) {
        0 => spoiled(rng.between(10, 14) as u8, seed).0,
        _ => good_of(shape, &mut rng),
    };
    if rng.chance(1, 4) {
        // Two faults, to tell which comes first. (The first leaves all kinds as
        // they are.)
        let first = rng.pick(&[4, 5]);
        let second = rng.pick(&[2, 3, 4, 5, 9]);
        damage(&mut bytes, first, &mut rng);
        damage(&mut bytes, second, &mut rng);
        return bytes;
    }
    for _ in 0..rng.between(1, 3) {
        let at = rng.below(bytes.len());
        match rng.below(14) {
            0 => {
                bytes.remove(at);
            }
            1 => bytes.insert(at, rng.byte()),
            2 => bytes.truncate(at),
            3 => {
                let end = (at + rng.between(1, 12)).min(bytes.len());
                let copy = bytes[at..end].to_vec();
                let to = rng.below(bytes.len() + 1);
                bytes.splice(to..to, copy);
            }
            4 => bytes[at] = rng.byte(),
            5 => bytes[at] ^= 1 << rng.below(8),
            6 => {
                // A level or status of a signature.
                let at = rng.below(bytes.len().min(60));
                bytes[at] ^= 1 << rng.below(8);
            }
            7 => {
                bytes[at] =
                    rng.pick(&[0x10, 0x13, 0x15, 0x16, 0x17, 0x18, 0x1b, 0x1c, 0x20, 0x23, 0x25]);
            }
            8 => {
                for _ in 0..rng.between(1, 4) {
                    bytes.push(rng.pick(&[kind::INIT, kind::RETURN, 0]));
                }
            }
            9 => {
                // Not in the header, if there is more than that.
                let at = at.max(bytes.len() - 1 - rng.below(bytes.len()) / 2);
                bytes[at] = rng.below(8) as u8;
            }
            _ => bytes[at] = rng.below(4) as u8,
        }
        if bytes.is_empty() {
            break;
        }
    }
    bytes
}

/// A short header and then bytes by chance, most of them likely ones, so that
/// some records read before the fault.
pub fn random(seed: u64) -> Vec<u8> {
    let mut rng = Rng::new(seed ^ 0x7261_6e64);
    let registers = rng.between(1, 3) as u8;
    let arrays = rng.below(2) as u8;
    let functions = rng.between(1, 2) as u8;
    let mut bytes = vec![kind::SIZES, registers, arrays, functions];
    for _ in 0..arrays {
        bytes.extend_from_slice(&[kind::ARRAY, rng.between(1, 4) as u8, 0]);
    }
    let code = SIZES_LENGTH
        + usize::from(arrays) * ARRAY_LENGTH
        + usize::from(functions) * SIGNATURE_LENGTH;
    for function in 0..functions {
        let start = code + usize::from(function) * rng.between(1, 8);
        bytes.extend_from_slice(&[kind::SIGNATURE, start as u8, 0]);
        bytes.extend_from_slice(&[0; 2 * Packed::LENGTH]);
    }
    for _ in 0..rng.below(40) {
        let byte = match rng.below(4) {
            0 if rng.chance(1, 4) => rng.pick(&[kind::LOAD_FIXED, kind::STORE_FIXED]),
            0 => rng.between(0x10, 0x18) as u8,
            1 => rng.between(0x20, 0x25) as u8,
            2 => (bytes.len() + rng.below(16)) as u8,
            _ => rng.below(3) as u8,
        };
        bytes.push(byte);
    }
    if rng.chance(1, 4) {
        let at = rng.below(bytes.len());
        bytes[at] = rng.byte();
    }
    bytes
}
