//! Tables by rules, and tables that fail in typing.

use super::author::{Author, Shape};
use super::rng::Rng;
use super::rules::Rules;
use crate::table::{kind, Instr};

/// A table that reads and types.
pub fn good(seed: u64) -> Vec<u8> {
    by_rules(Rules::Right, seed)
}

/// A table of this shape that reads and types.
pub fn good_of(shape: Shape, rng: &mut Rng) -> Vec<u8> {
    of_shape_by(Rules::Right, shape, rng)
}

/// A table that reads, written by these rules.
pub fn by_rules(rules: Rules, seed: u64) -> Vec<u8> {
    let mut rng = Rng::new(seed);
    let shape = Shape::any(&mut rng);
    of_shape_by(rules, shape, &mut rng)
}

/// A table of this shape that reads, written by these rules.
pub fn of_shape_by(rules: Rules, shape: Shape, rng: &mut Rng) -> Vec<u8> {
    Author::new(shape, rng, rules, None).write().0
}

/// A table that reads and fails with `number` from 10 to 14 at the place given
/// back, or whose first fault is a 17th nesting (6).
pub fn spoiled(number: u8, seed: u64) -> (Vec<u8>, usize) {
    let mut rng = Rng::new(seed ^ u64::from(number) << 56);
    loop {
        let shape = Shape::any(&mut rng);
        if let (bytes, Some(place)) =
            Author::new(shape, &mut rng, Rules::Right, Some(number)).write()
        {
            return (bytes, place);
        }
    }
}

/// A good table made longer, to `length` bytes, by records before the entry's
/// RETURN that the typing rules cannot mind: CONST only lowers, and INIT comes
/// last.
pub fn padded(mut table: Vec<u8>, length: usize) -> Vec<u8> {
    table.pop();
    while table.len() + 7 <= length {
        Instr::Const { dest: 0, value: 0 }.encode(&mut table);
    }
    while table.len() + 1 < length {
        Instr::Init.encode(&mut table);
    }
    table.push(kind::RETURN);
    table
}
