//! Mixtures of all that is generated.

use super::alter::altered;
use super::damage::damaged;
use super::directives::{damaged_directives, directives, state, Style};
use super::mutate::{mutated, random};
use super::rng::Rng;
use super::tables::{good, padded, spoiled};
use crate::machine;
use crate::table::{self, MAX_BYTES};

/// A table to check, and what is due if it is known: `None` if it is not known,
/// `Some(None)` for a pass, else number and place.
pub type Expected = Option<Option<(u8, usize)>>;

pub fn check_case(seed: u64) -> (Vec<u8>, Expected) {
    let mut rng = Rng::new(seed ^ 0xc4ec);
    let inner = rng.next();
    match rng.below(10) {
        0..=2 => (good(inner), Some(None)),
        3 | 4 => {
            let number = rng.between(10, 14) as u8;
            let (table, place) = spoiled(number, inner);
            (table, Some(Some((number, place))))
        }
        5 | 6 => {
            let number = rng.between(1, 9) as u8;
            let (table, place) = damaged(number, inner);
            (table, Some(Some((number, place))))
        }
        7 if rng.chance(1, 8) => {
            let length = MAX_BYTES - rng.below(3);
            (padded(good(inner), length), Some(None))
        }
        7 | 8 => (altered(inner), None),
        _ if rng.chance(1, 4) => (random(inner), None),
        _ => (mutated(inner), None),
    }
}

/// Everything that is lent to a run.
#[derive(Clone, Debug, PartialEq, Eq)]
pub struct RunCase {
    pub table: Vec<u8>,
    pub registers: Vec<u32>,
    pub memory: Vec<u32>,
    pub directives: Vec<u8>,
    pub observations: Vec<u8>,
}

/// A run to make: mostly of tables that read, some that do not type, some with
/// wrong lengths, bad lists or little room.
pub fn run_case(seed: u64) -> RunCase {
    let mut rng = Rng::new(seed ^ 0x0000_4a5e);
    let inner = rng.next();
    let table = match rng.below(16) {
        0 => damaged(rng.between(1, 9) as u8, inner).0,
        1..=3 => spoiled(rng.between(10, 14) as u8, inner).0,
        4 => mutated(inner),
        5 | 6 => altered(inner),
        _ => good(inner),
    };
    let (registers, memory, directives) = match table::read(&table) {
        Ok(read) => {
            let (mut registers, mut memory) = state(&read, &mut rng);
            let style = Style::any(&mut rng);
            let mut list = directives(&read, &registers, &memory, style, &mut rng);
            match rng.below(24) {
                0 => list = damaged_directives(&list, &mut rng).0,
                1 => {
                    // 15
                    match rng.below(4) {
                        0 => registers.push(0),
                        1 => memory.push(0),
                        2 => registers.truncate(registers.len() - 1),
                        _ => memory.truncate(memory.len().saturating_sub(1)),
                    }
                    if rng.chance(1, 4) {
                        list = damaged_directives(&list, &mut rng).0;
                    }
                }
                2 => {
                    let length = rng.below(list.len() + 1);
                    list.truncate(length);
                }
                _ => {}
            }
            (registers, memory, list)
        }
        Err(_) => (vec![1; 2], vec![2; 4], vec![machine::kind::PLAIN; 3]),
    };
    let room = match rng.below(8) {
        0 => rng.below(64),
        1 => rng.below(6 * directives.len() + 1),
        _ => 6 * directives.len() + 1,
    };
    let fill = rng.byte();
    RunCase { table, registers, memory, directives, observations: vec![fill; room] }
}
