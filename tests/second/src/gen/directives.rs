//! States to start from, and directive lists.

use super::rng::Rng;
use crate::machine::{self, Directive, Due, Machine, MAX_DIRECTIVES};
use crate::table::{kind, Instr, Table};
use crate::typing::{Env, SECRET};

/// Random registers and memory for a table.
pub fn state(table: &Table<'_>, rng: &mut Rng) -> (Vec<u32>, Vec<u32>) {
    let registers = (0..table.registers()).map(|_| rng.word()).collect();
    let memory = (0..table.memory()).map(|_| rng.word()).collect();
    (registers, memory)
}

/// The same with every word that the entry's in-environment calls secret drawn
/// anew. (Transient ones are public on the right path, where a run starts.)
pub fn other_secrets(
    table: &Table<'_>,
    registers: &[u32],
    memory: &[u32],
    rng: &mut Rng,
) -> (Vec<u32>, Vec<u32>) {
    let input = Env::from_packed(table.input(table.entry()));
    let mut registers = registers.to_vec();
    let mut memory = memory.to_vec();
    for (number, word) in registers.iter_mut().enumerate() {
        if input.register(number as u8) == SECRET {
            *word = rng.word();
        }
    }
    let mut base = 0;
    for array in 0..table.arrays() {
        let end = base + table.words(array);
        if input.array(array as u8) == SECRET {
            for word in &mut memory[base..end] {
                *word = rng.word();
            }
        }
        base = end;
    }
    (registers, memory)
}

/// How a directive list behaves.
#[derive(Clone, Copy, Debug)]
pub struct Style {
    /// A wrong branch or return, where there is one, so many times in 16.
    pub wrong: usize,
    /// A directive that stops the run, so many times in 1024.
    pub noise: usize,
    /// At most so many steps.
    pub steps: usize,
}

impl Style {
    /// Follows the right path.
    pub const RIGHT: Style = Style { wrong: 0, noise: 0, steps: 4_000 };

    /// Speculates, rarely or at every chance.
    pub fn speculating(rng: &mut Rng) -> Style {
        Style { wrong: rng.pick(&[1, 2, 4, 8, 16]), noise: 0, steps: rng.pick(&[40, 400, 4_000]) }
    }

    /// Any of these, some with wrong directives among them.
    pub fn any(rng: &mut Rng) -> Style {
        match rng.below(4) {
            0 => Style::RIGHT,
            1 => Style { noise: rng.pick(&[2, 16, 64]), ..Style::speculating(rng) },
            _ => Style::speculating(rng),
        }
    }
}

/// A real word of memory to stray to, rather a secret one.
fn real_word(table: &Table<'_>, rng: &mut Rng) -> Directive {
    let input = Env::from_packed(table.input(table.entry()));
    let mut array = rng.below(table.arrays());
    if input.array(array as u8) != SECRET {
        array = rng.below(table.arrays());
    }
    Directive::Stray { array: array as u8, index: rng.below(table.words(array)) as u16 }
}

/// The words that LOADs FIXED read, after their places.
fn fixed_words(table: &Table<'_>) -> Vec<(usize, Directive)> {
    let word = |(place, instr)| match instr {
        Instr::LoadFixed { array, index, .. } => Some((place, Directive::Stray { array, index })),
        _ => None,
    };
    table.instrs().filter_map(word).collect()
}

/// A directive that the run cannot go on with (most of the time).
fn noise(table: &Table<'_>, due: &Due, rng: &mut Rng) -> Directive {
    let word = rng.next() as u16;
    match rng.below(10) {
        0 => Directive::Plain,
        1 => Directive::Branch { way: rng.chance(1, 2) },
        2 => Directive::Stray { array: rng.below(4) as u8, index: rng.below(16) as u16 },
        3 => Directive::Return { place: word % 200 },
        _ => match due {
            // "names no such word or no such return place"
            Due::Stray { .. } => {
                let array = rng.below(table.arrays());
                match rng.below(3) {
                    0 => Directive::Stray { array: table.arrays() as u8, index: 0 },
                    1 => Directive::Stray { array: array as u8, index: table.words(array) as u16 },
                    _ => Directive::Stray { array: rng.byte(), index: word },
                }
            }
            Due::Return { .. } => {
                let place = match rng.below(3) {
                    // A place after some 0x18 byte, be it a CALL or not.
                    0 => table
                        .bytes()
                        .iter()
                        .position(|&byte| byte == kind::CALL)
                        .map_or(0, |at| at + 3),
                    1 => rng.below(table.bytes().len()),
                    _ => {
                        let calls =
                            table.instrs().filter(|(_, instr)| matches!(instr, Instr::Call { .. }));
                        let places: Vec<usize> = calls.map(|(place, _)| place + 3).collect();
                        match places.len() {
                            0 => 0,
                            _ => rng.pick(&places),
                        }
                    }
                };
                Directive::Return { place: place as u16 }
            }
            // A stray access where none can be.
            Due::Plain if table.arrays() > 0 && rng.chance(1, 2) => real_word(table, rng),
            _ => Directive::Plain,
        },
    }
}

/// A directive list, and what the run that it was written along did.
#[derive(Clone, Debug, Default)]
pub struct Written {
    pub list: Vec<u8>,
    pub wrong_branches: usize,
    pub wrong_returns: usize,
    pub strays: usize,
    /// Most return places on the stack at a RETURN.
    pub deepest: usize,
}

impl Written {
    /// Counts a step that went wrong on purpose.
    fn count(&mut self, due: &Due, directive: Directive) {
        match (due, directive) {
            (Due::Branch { right }, Directive::Branch { way }) if *right != way => {
                self.wrong_branches += 1;
            }
            (Due::Return { top, .. }, Directive::Return { place }) if *top != Some(place) => {
                self.wrong_returns += 1;
            }
            (Due::Stray { .. }, _) => self.strays += 1,
            _ => {}
        }
    }
}

/// A directive list for a run from this state.
pub fn directives(
    table: &Table<'_>,
    registers: &[u32],
    memory: &[u32],
    style: Style,
    rng: &mut Rng,
) -> Vec<u8> {
    write_directives(table, registers, memory, style, rng).list
}

/// A directive list for a run from this state, written by running along.
pub fn write_directives(
    table: &Table<'_>,
    registers: &[u32],
    memory: &[u32],
    style: Style,
    rng: &mut Rng,
) -> Written {
    let mut registers = registers.to_vec();
    let mut memory = memory.to_vec();
    let mut machine = Machine::new(table);
    let mut written = Written::default();
    let mut fixed = None;
    let mut room = [0; 6];
    for _ in 0..style.steps {
        if written.list.len() + 4 > MAX_DIRECTIVES {
            break;
        }
        let wrong = rng.chance(style.wrong, 16);
        let due = machine.due(&registers);
        let mut directive = match due {
            Due::End => break,
            // A directive is still needed, or the list ends first.
            Due::Stuck | Due::Plain => Directive::Plain,
            Due::Branch { right } => Directive::Branch { way: right != wrong },
            // A STORE rather goes where a LOAD FIXED reads.
            Due::Stray { store: true } if rng.chance(3, 4) => {
                let read = fixed.get_or_insert_with(|| fixed_words(table));
                fixed_word(table, read, machine.place(), rng)
            }
            Due::Stray { .. } => real_word(table, rng),
            Due::Return { top, function } => {
                written.deepest = written.deepest.max(machine.depth());
                let sites = other_sites(&mut machine, function, top);
                way_back(table, top, wrong, &sites, rng)
            }
        };
        // More often where a wrong name, and not only a wrong kind, is possible.
        let often = match due {
            Due::Stray { .. } | Due::Return { .. } => 4,
            _ => 1,
        };
        if rng.chance(often * style.noise, 1024) {
            directive = noise(table, &due, rng);
        }
        directive.encode(&mut written.list);
        let step = machine.step(&mut registers, &mut memory, Some(directive), &mut room);
        if step.is_err() {
            break;
        }
        written.count(&due, directive);
    }
    // Directives that nobody uses do no harm.
    if rng.chance(1, 4) {
        for _ in 0..rng.below(4) {
            if written.list.len() + 4 <= MAX_DIRECTIVES {
                Directive::Plain.encode(&mut written.list);
            }
        }
    }
    written
}

/// One of the words that LOADs FIXED read: of the next after `place`, or any.
fn fixed_word(
    table: &Table<'_>,
    read: &[(usize, Directive)],
    place: usize,
    rng: &mut Rng,
) -> Directive {
    let after = read.iter().position(|&(at, _)| at > place);
    match (after, read.len()) {
        (_, 0) => real_word(table, rng),
        (Some(at), all) if rng.chance(2, 3) => read[rng.between(at, all.min(at + 2) - 1)].1,
        _ => rng.pick(read).1,
    }
}

/// The places after the CALLs of a function, but for the right one.
fn other_sites(machine: &mut Machine<'_>, function: usize, top: Option<u16>) -> Vec<u16> {
    let sites = machine.sites().iter();
    sites
        .filter(|site| usize::from(site.function) == function)
        .map(|site| site.place as u16)
        .filter(|&place| Some(place) != top)
        .collect()
}

/// A RETURN's directive: to the top of the stack, or to one of the other sites.
fn way_back(
    table: &Table<'_>,
    top: Option<u16>,
    wrong: bool,
    sites: &[u16],
    rng: &mut Rng,
) -> Directive {
    match top {
        Some(place) if !wrong || sites.is_empty() => Directive::Return { place },
        // Nobody calls the function: a wrong return led into it.
        _ if sites.is_empty() => Directive::Return { place: rng.below(table.bytes().len()) as u16 },
        _ => Directive::Return { place: rng.pick(sites) },
    }
}

/// A list that fails with 16, and the place of that fault.
pub fn damaged_directives(list: &[u8], rng: &mut Rng) -> (Vec<u8>, usize) {
    let mut list = list.to_vec();
    // Where directives start, and one more may; room is left for one.
    let mut starts = vec![0];
    let mut place = 0;
    while let Some((_, length)) = Directive::decode(&list[place..]) {
        place += length;
        if place + 4 <= MAX_DIRECTIVES {
            starts.push(place);
        }
    }
    let at = rng.pick(&starts);
    match rng.below(4) {
        0 => {
            let length = MAX_DIRECTIVES + rng.between(1, 9);
            let byte = rng.pick(&[machine::kind::PLAIN, 0]);
            list.resize(length, byte);
            (list, 0)
        }
        1 => {
            // Unknown kind, in place of a directive or at the end.
            let unknown = loop {
                let byte = rng.byte();
                if machine::directive_length(byte).is_none() {
                    break byte;
                }
            };
            match list.get_mut(at) {
                Some(byte) => *byte = unknown,
                None => list.push(unknown),
            }
            (list, at)
        }
        2 => {
            // Cut short.
            list.truncate(at);
            let cut: [&[u8]; 4] = [&[0x61], &[0x62, 0, 0], &[0x62], &[0x63, 1]];
            list.extend_from_slice(rng.pick(&cut));
            (list, at)
        }
        _ => {
            // A branch byte over 1.
            list.truncate(at);
            list.extend_from_slice(&[0x61, rng.between(2, 255) as u8]);
            (list, at)
        }
    }
}
