//! The machine written a second time, plainly: a list of records searched by
//! place, directives cut up beforehand, and the stops tested one after another
//! in 01's order before a step is made.

use super::naive;
use second::Outcome;

struct Record {
    place: usize,
    function: usize,
    bytes: Vec<u8>,
}

fn two(bytes: &[u8]) -> usize {
    usize::from(bytes[0]) + 256 * usize::from(bytes[1])
}

fn length(kind: u8) -> usize {
    match kind {
        0x10 => 6,
        0x11 | 0x12 | 0x1b | 0x1c => 5,
        0x13 | 0x14 | 0x20 => 4,
        0x16 | 0x17 | 0x18 | 0x21 | 0x24 => 3,
        0x23 => 11,
        _ => 1,
    }
}

fn split(list: &[u8]) -> Result<Vec<&[u8]>, usize> {
    if list.len() > 16384 {
        return Err(0);
    }
    let mut all = vec![];
    let mut at = 0;
    while at < list.len() {
        let end = at
            + match list[at] {
                0x60 => 1,
                0x61 => 2,
                0x62 => 4,
                0x63 => 3,
                _ => return Err(at),
            };
        if end > list.len() || list[at] == 0x61 && list[at + 1] > 1 {
            return Err(at);
        }
        all.push(&list[at..end]);
        at = end;
    }
    Ok(all)
}

pub fn run(t: &[u8], regs: &mut [u32], mem: &mut [u32], list: &[u8], obs: &mut [u8]) -> Outcome {
    if let Err((number, place)) = naive::check(t) {
        if number < 10 {
            return Outcome::Refused { number, place };
        }
    }
    let arrays = usize::from(t[2]);
    let functions = usize::from(t[3]);
    let words: Vec<usize> = (0..arrays).map(|a| two(&t[5 + 3 * a..])).collect();
    if regs.len() != usize::from(t[1]) || mem.len() != words.iter().sum::<usize>() {
        return Outcome::Refused { number: 15, place: 0 };
    }
    let directives = match split(list) {
        Ok(all) => all,
        Err(place) => return Outcome::Refused { number: 16, place },
    };
    let base = |array: usize| -> usize { words[..array].iter().sum() };

    let mut records = vec![];
    let mut place = 4 + 3 * arrays + 17 * functions;
    let mut function = 0;
    let mut starts = vec![place];
    while place < t.len() {
        let end = place + length(t[place]);
        records.push(Record { place, function, bytes: t[place..end].to_vec() });
        place = end;
        if records[records.len() - 1].bytes[0] == 0x25 {
            function += 1;
            starts.push(place);
        }
    }
    let entry = functions - 1;

    let mut at = starts[entry];
    let mut stack: Vec<usize> = vec![];
    let mut misspeculating = false;
    let mut masked = false;
    let mut steps = 0;
    let mut written = 0;
    loop {
        let stop = |number| Outcome::Stopped { number, place: at, steps, misspeculating, masked };
        let record = records.iter().find(|record| record.place == at).expect("a record");
        let r = &record.bytes;
        let next = at + r.len();
        let reg = |field: usize| regs[usize::from(r[field])];

        // 21, 20, 23
        if r[0] == 0x25 && record.function == entry {
            return stop(21);
        }
        if steps == directives.len() {
            return stop(20);
        }
        let d = directives[steps];
        if r[0] == 0x15 && misspeculating {
            return stop(23);
        }
        // 24
        let access = match r[0] {
            0x13 => Some((usize::from(r[2]), reg(3))),
            0x14 => Some((usize::from(r[1]), reg(2))),
            0x1b => Some((usize::from(r[2]), two(&r[3..]) as u32)),
            0x1c => Some((usize::from(r[1]), two(&r[2..]) as u32)),
            _ => None,
        };
        // A fixed index was read as in range: no stray access at 1B and 1C.
        let out_of_range = matches!(r[0], 0x13 | 0x14)
            && access.map_or(false, |(array, index)| index as usize >= words[array]);
        if out_of_range && !misspeculating {
            return stop(24);
        }
        // 22
        let takes = match r[0] {
            0x20 | 0x23 => 0x61,
            0x25 => 0x63,
            _ if out_of_range => 0x62,
            _ => 0x60,
        };
        if d[0] != takes {
            return stop(22);
        }
        // 25
        let mut touched = access.map(|(array, index)| base(array) + index as usize);
        if takes == 0x62 {
            let array = usize::from(d[1]);
            let index = two(&d[2..]);
            if array >= arrays || index >= words[array] {
                return stop(25);
            }
            touched = Some(base(array) + index);
        }
        let mut wrong_return = None;
        if takes == 0x63 && stack.last() != Some(&two(&d[1..])) {
            let to = two(&d[1..]);
            let call = records.iter().find(|call| {
                call.place + 3 == to
                    && call.bytes[0] == 0x18
                    && usize::from(call.bytes[1]) == record.function
            });
            match call {
                Some(call) => wrong_return = Some(call.bytes[2] == 1),
                None => return stop(25),
            }
        }
        // 26
        let seen = match (access, takes) {
            (Some((array, index)), _) => {
                let mut seen = vec![0x72, array as u8];
                seen.extend(&index.to_le_bytes());
                seen
            }
            (None, 0x61) => vec![0x71, u8::from(reg(1) != 0)],
            _ => vec![0x70],
        };
        if obs.len() - written < seen.len() {
            return stop(26);
        }

        obs[written..written + seen.len()].copy_from_slice(&seen);
        written += seen.len();
        steps += 1;
        at = next;
        match r[0] {
            0x10 => regs[usize::from(r[1])] = u32::from_le_bytes([r[2], r[3], r[4], r[5]]),
            0x11 => {
                let (x, y) = (u64::from(reg(3)), u64::from(reg(4)));
                let full = match r[2] {
                    0 => x + y,
                    1 => x + (1 << 32) - y,
                    2 => x * y,
                    3 => x ^ y,
                    4 => x & y,
                    5 => x | y,
                    6 => u64::from(x < y),
                    _ => u64::from(x == y),
                };
                regs[usize::from(r[1])] = (full % (1 << 32)) as u32;
            }
            0x12 => regs[usize::from(r[1])] = if reg(2) != 0 { reg(3) } else { reg(4) },
            0x13 | 0x1b => regs[usize::from(r[1])] = mem[touched.unwrap()],
            0x14 => mem[touched.unwrap()] = reg(3),
            0x1c => mem[touched.unwrap()] = reg(4),
            0x15 => masked = false,
            0x16 => {
                let holds = if r[2] == 1 { reg(1) != 0 } else { reg(1) == 0 };
                masked = masked || !holds;
            }
            0x17 => regs[usize::from(r[1])] = if masked { 4_294_967_295 } else { reg(2) },
            0x18 => {
                stack.push(next);
                assert!(stack.len() <= 31);
                at = starts[usize::from(r[1])];
            }
            0x20 | 0x23 => {
                if d[1] == 0 {
                    at = two(&r[2..]) + 3;
                }
                if (d[1] == 1) != (reg(1) != 0) {
                    misspeculating = true;
                }
            }
            0x21 => at = two(&r[1..]) + 1,
            0x22 => {}
            0x24 => at = two(&r[1..]),
            _ => {
                at = two(&d[1..]);
                match wrong_return {
                    None => {
                        stack.pop();
                    }
                    Some(mark) => {
                        stack.clear();
                        misspeculating = true;
                        masked = masked || mark;
                    }
                }
            }
        }
    }
}
