//! A checker written a second time, plainly and by recursion, to hold against
//! the fast one: levels one by one, blocks that call each other, and none of the
//! library's reading or typing.

type Fault = (u8, usize);

#[derive(Clone, PartialEq, Debug)]
enum Status {
    Unknown,
    Updated,
    Outdated(u8, u8),
}

#[derive(Clone, Debug)]
struct Env {
    status: Status,
    regs: Vec<u8>,
    arrs: Vec<u8>,
}

fn within(e: &Env, f: &Env) -> bool {
    e.regs.iter().zip(&f.regs).all(|(a, b)| a <= b)
        && e.arrs.iter().zip(&f.arrs).all(|(a, b)| a <= b)
        && (f.status == Status::Unknown || f.status == e.status)
}

fn join(e: &Env, f: &Env) -> Env {
    let larger = |a: &[u8], b: &[u8]| a.iter().zip(b).map(|(x, y)| *x.max(y)).collect();
    Env {
        status: if e.status == f.status { e.status.clone() } else { Status::Unknown },
        regs: larger(&e.regs, &f.regs),
        arrs: larger(&e.arrs, &f.arrs),
    }
}

/// A tree of what a function holds; the place of each record beside it.
enum Node {
    Flat(usize, Vec<u8>),
    Call(usize, usize, u8),
    If(usize, u8, Vec<Node>, Vec<Node>),
    While(usize, usize, u8, Env, Vec<Node>),
}

struct Reader<'a> {
    t: &'a [u8],
    at: usize,
    regs: usize,
    arrs: usize,
    funs: usize,
    /// Words of each array.
    words: Vec<u32>,
    ins: Vec<Env>,
    outs: Vec<Env>,
    starts: Vec<usize>,
    function: usize,
    first: usize,
}

fn body(kind: u8) -> usize {
    match kind {
        0x01 => 3,
        0x02 => 2,
        0x03 => 2 + 7 + 7,
        0x10 => 1 + 4,
        0x11 | 0x12 => 4,
        0x13 | 0x14 => 3,
        0x16..=0x18 => 2,
        0x1b => 1 + 1 + 2,
        0x1c => 1 + 2 + 1,
        0x20 => 1 + 2,
        0x21 | 0x24 => 2,
        0x23 => 1 + 2 + 7,
        _ => 0,
    }
}

impl<'a> Reader<'a> {
    fn kind(&self) -> Result<u8, Fault> {
        self.t.get(self.at).copied().ok_or((2, self.at))
    }

    /// Faults 3 and 2; then steps over the record.
    fn record(&mut self, allowed: &[u8]) -> Result<(usize, &'a [u8]), Fault> {
        let place = self.at;
        let kind = self.kind()?;
        if !allowed.contains(&kind) {
            return Err((3, place));
        }
        let end = place + 1 + body(kind);
        if end > self.t.len() {
            return Err((2, place));
        }
        self.at = end;
        Ok((place, &self.t[place..end]))
    }

    fn env(&self, b: &[u8], place: usize) -> Result<Env, Fault> {
        let status = match b[0] {
            0 => Status::Unknown,
            1 => Status::Updated,
            _ => return Err((4, place)),
        };
        let slots = |bytes: &[u8], used: usize| -> Result<Vec<u8>, Fault> {
            let mut levels = vec![];
            for slot in 0..bytes.len() * 4 {
                let level = bytes[slot / 4] / 4u8.pow(slot as u32 % 4) % 4;
                if slot < used && level == 3 || slot >= used && level != 0 {
                    return Err((4, place));
                }
                if slot < used {
                    levels.push(level);
                }
            }
            Ok(levels)
        };
        Ok(Env { status, regs: slots(&b[1..5], self.regs)?, arrs: slots(&b[5..7], self.arrs)? })
    }

    fn need(&self, holds: bool, number: u8, place: usize) -> Result<(), Fault> {
        if holds {
            Ok(())
        } else {
            Err((number, place))
        }
    }

    fn start(&self, place: usize) -> Result<(), Fault> {
        let wrong = place == self.first && self.starts[self.function] != place;
        self.need(!wrong, 5, place)
    }

    /// Instructions up to `closer`, which is not taken.
    fn block(&mut self, closer: u8, left: usize) -> Result<Vec<Node>, Fault> {
        let mut nodes = vec![];
        while self.kind()? != closer {
            nodes.push(self.instruction(left)?);
        }
        Ok(nodes)
    }

    fn instruction(&mut self, left: usize) -> Result<Node, Fault> {
        let open = [0x10, 0x11, 0x12, 0x13, 0x14, 0x15, 0x16, 0x17, 0x18, 0x1b, 0x1c, 0x20, 0x23];
        let (place, r) = self.record(&open)?;
        let reg = |n: u8| usize::from(n) < self.regs;
        let arr = |n: u8| usize::from(n) < self.arrs;
        let word = |n: u8, low: u8, high: u8| {
            let index = u32::from(low) + 256 * u32::from(high);
            self.words.get(usize::from(n)).map_or(false, |&words| index < words)
        };
        let fields = match r[0] {
            0x10 => reg(r[1]),
            0x11 => reg(r[1]) && r[2] < 8 && reg(r[3]) && reg(r[4]),
            0x12 => r[1..].iter().all(|&n| reg(n)),
            0x13 => reg(r[1]) && arr(r[2]) && reg(r[3]),
            0x14 => arr(r[1]) && reg(r[2]) && reg(r[3]),
            0x16 => reg(r[1]) && r[2] < 2,
            0x17 => reg(r[1]) && reg(r[2]),
            0x18 => usize::from(r[1]) < self.funs && r[2] < 2,
            0x1b => reg(r[1]) && word(r[2], r[3], r[4]),
            0x1c => word(r[1], r[2], r[3]) && reg(r[4]),
            0x20 => reg(r[1]),
            0x23 => reg(r[1]),
            _ => true,
        };
        self.need(fields, 4, place)?;
        let named = |at: usize| usize::from(r[at]) + 256 * usize::from(r[at + 1]);
        match r[0] {
            0x18 => {
                self.start(place)?;
                self.need(usize::from(r[1]) < self.function, 7, place)?;
                Ok(Node::Call(place, usize::from(r[1]), r[2]))
            }
            0x20 => {
                self.start(place)?;
                self.need(left > 0, 6, place)?;
                let first = self.block(0x21, left - 1)?;
                let (middle, e) = self.record(&[0x21])?;
                self.need(named(2) == middle, 5, middle)?;
                let end_named = usize::from(e[1]) + 256 * usize::from(e[2]);
                let second = self.block(0x22, left - 1)?;
                let (end, _) = self.record(&[0x22])?;
                self.need(end_named == end, 5, end)?;
                Ok(Node::If(place, r[1], first, second))
            }
            0x23 => {
                let env = self.env(&r[4..11], place)?;
                self.start(place)?;
                self.need(left > 0, 6, place)?;
                let inner = self.block(0x24, left - 1)?;
                let (end, e) = self.record(&[0x24])?;
                let back = usize::from(e[1]) + 256 * usize::from(e[2]);
                self.need(named(2) == end && back == place, 5, end)?;
                Ok(Node::While(place, end, r[1], env, inner))
            }
            _ => {
                self.start(place)?;
                Ok(Node::Flat(place, r.to_vec()))
            }
        }
    }

    fn table(&mut self) -> Result<Vec<(Vec<Node>, usize)>, Fault> {
        if self.t.len() > 32768 {
            return Err((1, 0));
        }
        let (_, r) = self.record(&[0x01])?;
        let sizes = (1..=16).contains(&r[1]) && r[2] <= 8 && (1..=32).contains(&r[3]);
        self.need(sizes, 4, 0)?;
        self.regs = r[1].into();
        self.arrs = r[2].into();
        self.funs = r[3].into();
        for _ in 0..self.arrs {
            let (place, r) = self.record(&[0x02])?;
            let words = u32::from(r[1]) + 256 * u32::from(r[2]);
            self.need((1..=1024).contains(&words), 4, place)?;
            self.words.push(words);
        }
        for function in 0..self.funs {
            let (place, r) = self.record(&[0x03])?;
            let input = self.env(&r[3..10], place)?;
            let output = self.env(&r[10..17], place)?;
            let entry = function == self.funs - 1;
            self.need(!entry || input.status == Status::Unknown, 8, place)?;
            self.starts.push(usize::from(r[1]) + 256 * usize::from(r[2]));
            self.ins.push(input);
            self.outs.push(output);
        }
        let mut functions = vec![];
        for function in 0..self.funs {
            self.function = function;
            self.first = self.at;
            let nodes = self.block(0x25, 16)?;
            let (end, _) = self.record(&[0x25])?;
            self.start(end)?;
            functions.push((nodes, end));
        }
        self.need(self.at == self.t.len(), 9, self.at)?;
        Ok(functions)
    }

    fn type_block(&self, nodes: &[Node], mut env: Env) -> Result<Env, Fault> {
        for node in nodes {
            env = self.type_node(node, env)?;
        }
        Ok(env)
    }

    fn way(&self, env: &Env, r: u8, s: u8) -> Env {
        let mut way = env.clone();
        way.status =
            if env.status == Status::Updated { Status::Outdated(r, s) } else { Status::Unknown };
        way
    }

    fn type_node(&self, node: &Node, env: Env) -> Result<Env, Fault> {
        match node {
            Node::Flat(place, r) => self.type_flat(*place, r, env),
            Node::Call(place, callee, mark) => {
                self.need(within(&env, &self.ins[*callee]), 13, *place)?;
                let mut after = self.outs[*callee].clone();
                if *mark == 0 {
                    after.status = Status::Unknown;
                }
                Ok(after)
            }
            Node::If(place, r, first, second) => {
                self.need(env.regs[usize::from(*r)] == 0, 10, *place)?;
                let one = self.type_block(first, self.way(&env, *r, 1))?;
                let two = self.type_block(second, self.way(&env, *r, 0))?;
                Ok(join(&one, &two))
            }
            Node::While(place, end, r, of, inner) => {
                self.need(within(&env, of), 12, *place)?;
                self.need(of.regs[usize::from(*r)] == 0, 10, *place)?;
                let last = self.type_block(inner, self.way(of, *r, 1))?;
                self.need(within(&last, of), 12, *end)?;
                Ok(self.way(of, *r, 0))
            }
        }
    }

    fn type_flat(&self, place: usize, r: &[u8], mut env: Env) -> Result<Env, Fault> {
        let f: Vec<usize> = r.iter().map(|&b| usize::from(b)).collect();
        let mut written = None;
        match r[0] {
            0x10 => {
                env.regs[f[1]] = 0;
                written = Some(r[1]);
            }
            0x11 => {
                env.regs[f[1]] = env.regs[f[3]].max(env.regs[f[4]]);
                written = Some(r[1]);
            }
            0x12 => {
                env.regs[f[1]] = *[f[2], f[3], f[4]].iter().map(|&n| &env.regs[n]).max().unwrap();
                written = Some(r[1]);
            }
            0x13 => {
                self.need(env.regs[f[3]] == 0, 10, place)?;
                env.regs[f[1]] = if env.arrs[f[2]] <= 1 { 1 } else { 2 };
                written = Some(r[1]);
            }
            0x14 => {
                self.need(env.regs[f[2]] == 0, 10, place)?;
                let source = env.regs[f[3]];
                for array in 0..self.arrs {
                    let level = env.arrs[array];
                    if array == f[1] {
                        env.arrs[array] = level.max(source);
                    } else if source > 0 && level == 0 {
                        env.arrs[array] = 1;
                    }
                }
            }
            0x1b => {
                env.regs[f[1]] = env.arrs[f[2]];
                written = Some(r[1]);
            }
            0x1c => env.arrs[f[1]] = env.arrs[f[1]].max(env.regs[f[4]]),
            0x15 => {
                let levels = env.regs.iter_mut().chain(&mut env.arrs);
                for level in levels.filter(|level| **level == 1) {
                    *level = 0;
                }
                env.status = Status::Updated;
            }
            0x16 => {
                self.need(env.status == Status::Outdated(r[1], r[2]), 11, place)?;
                env.status = Status::Updated;
            }
            _ => {
                self.need(env.status == Status::Updated, 11, place)?;
                env.regs[f[1]] = if env.regs[f[2]] == 2 { 2 } else { 0 };
            }
        }
        if let (Some(register), Status::Outdated(of, _)) = (written, &env.status) {
            if register == *of {
                env.status = Status::Unknown;
            }
        }
        Ok(env)
    }
}

/// Number and place of the first fault, or how many functions there are.
pub fn check(t: &[u8]) -> Result<usize, Fault> {
    let mut reader = Reader {
        t,
        at: 0,
        regs: 0,
        arrs: 0,
        funs: 0,
        words: vec![],
        ins: vec![],
        outs: vec![],
        starts: vec![],
        function: 0,
        first: 0,
    };
    let functions = reader.table()?;
    for (function, (nodes, end)) in functions.iter().enumerate() {
        let last = reader.type_block(nodes, reader.ins[function].clone())?;
        reader.need(within(&last, &reader.outs[function]), 14, *end)?;
    }
    Ok(reader.funs)
}
