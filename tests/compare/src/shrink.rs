//! A smaller case that still fails: less of the list, of the table, of the words and of the room.

use crate::case::Case;
use likunjavo_text::{assemble, disassemble};
use second::gen::RunCase;
use second::machine::Directive;
use second::table;
use std::time::{Duration, Instant};

/// Shrinking ends here, however much smaller the case might still get.
const LONGEST: Duration = Duration::from_secs(60);

/// Of more items than this, single ones are not tried.
const FINEST: usize = 500;

/// The smallest case found that still fails. `case` itself must fail.
pub fn shrunk(case: Case, fails: &dyn Fn(&Case) -> bool) -> Case {
    let mut shrinking = Shrinking { case, fails, end: Instant::now() + LONGEST };
    loop {
        let before = shrinking.case.clone();
        shrinking.list();
        shrinking.table();
        shrinking.zeros(registers_mut);
        shrinking.zeros(memories_mut);
        shrinking.room();
        if shrinking.case == before || shrinking.late() {
            return shrinking.case;
        }
    }
}

struct Shrinking<'a> {
    case: Case,
    fails: &'a dyn Fn(&Case) -> bool,
    end: Instant,
}

impl Shrinking<'_> {
    fn late(&self) -> bool {
        Instant::now() > self.end
    }

    /// Takes the changed case if it still fails.
    fn try_case(&mut self, changed: Case) -> bool {
        let takes = changed != self.case && !self.late() && (self.fails)(&changed);
        if takes {
            self.case = changed;
        }
        takes
    }

    fn try_edit(&mut self, edit: impl FnOnce(&mut Case)) -> bool {
        let mut changed = self.case.clone();
        edit(&mut changed);
        self.try_case(changed)
    }

    /// Leaves out runs of items, long ones first and from the end; `rebuild` puts what is left into a case.
    fn drop_items<T: Clone>(
        &mut self,
        items: Vec<T>,
        rebuild: impl Fn(&Case, &[T]) -> Option<Case>,
    ) {
        let mut items = items;
        let mut length = items.len();
        while length > items.len() / FINEST {
            let mut end = items.len();
            while end > 0 {
                let start = end.saturating_sub(length);
                let less = [&items[..start], &items[end..]].concat();
                if rebuild(&self.case, &less).map_or(false, |case| self.try_case(case)) {
                    items = less;
                }
                end = start;
            }
            length /= 2;
        }
    }

    fn list(&mut self) {
        if let Some(list) = list_of(&self.case) {
            self.drop_items(directives_of(list), |case, directives| {
                let mut case = case.clone();
                *list_mut(&mut case)? = directives.concat();
                Some(case)
            });
        }
    }

    fn table(&mut self) {
        self.functions();
        self.blocks();
        self.drop_items(lines_of(&self.case), with_lines);
        self.arrays();
        if table::read(self.case.table()).is_err() {
            let bytes = self.case.table().to_vec();
            self.drop_items(bytes, |case, bytes| Some(with_table(case, bytes.to_vec())));
        }
    }

    fn functions(&mut self) {
        let mut function = self.case.table().get(3).map_or(0, |&functions| usize::from(functions));
        while function > 0 {
            function -= 1;
            let lines = without_function(&lines_of(&self.case), function);
            if let Some(case) = with_lines(&self.case, &lines) {
                self.try_case(case);
            }
        }
    }

    /// Leaves out whole blocks, or their opening and closing alone.
    fn blocks(&mut self) {
        let mut at = 0;
        while at < lines_of(&self.case).len() {
            let lines = lines_of(&self.case);
            let bounds = block_at(&lines, at);
            let whole: Vec<usize> = match (bounds.first(), bounds.last()) {
                (Some(&first), Some(&last)) => (first..=last).collect(),
                _ => Vec::new(),
            };
            if !self.try_without(&lines, &whole) && !self.try_without(&lines, &bounds) {
                at += 1;
            }
        }
    }

    /// Leaves out the lines of these numbers.
    fn try_without(&mut self, lines: &[String], numbers: &[usize]) -> bool {
        let kept: Vec<String> = (0..lines.len())
            .filter(|number| !numbers.contains(number))
            .map(|number| lines[number].clone())
            .collect();
        with_lines(&self.case, &kept).map_or(false, |case| self.try_case(case))
    }

    /// Makes arrays one word long.
    fn arrays(&mut self) {
        let arrays = table::read(self.case.table()).map_or(0, |read| read.arrays());
        for array in 0..arrays {
            let (base, words) = match table::read(self.case.table()) {
                Ok(read) => ((0..array).map(|of| read.words(of)).sum::<usize>(), read.words(array)),
                Err(_) => return,
            };
            let at = table::SIZES_LENGTH + array * table::ARRAY_LENGTH;
            self.try_edit(|case| {
                let mut bytes = case.table().to_vec();
                bytes[at + 1..at + 3].copy_from_slice(&[1, 0]);
                *case = with_table(case, bytes);
                for memory in memories_mut(case) {
                    if base + words <= memory.len() {
                        memory.drain(base + 1..base + words);
                    }
                }
            });
        }
    }

    /// Makes words 0, in both runs of a pair alike.
    fn zeros(&mut self, words_mut: fn(&mut Case) -> Vec<&mut Vec<u32>>) {
        let length = words_mut(&mut self.case).first().map_or(0, |words| words.len());
        let mut chunk = length;
        while chunk > 0 {
            for start in (0..length).step_by(chunk) {
                self.try_edit(|case| {
                    for words in words_mut(case) {
                        words.iter_mut().skip(start).take(chunk).for_each(|word| *word = 0);
                    }
                });
            }
            chunk /= 2;
        }
    }

    fn room(&mut self) {
        if let Some(run) = run_of(&self.case) {
            let bytes = run.observations.clone();
            self.drop_items(bytes, |case, bytes| {
                let mut case = case.clone();
                run_mut(&mut case)?.observations = bytes.to_vec();
                Some(case)
            });
            self.try_edit(|case| {
                if let Some(run) = run_mut(case) {
                    run.observations.iter_mut().for_each(|byte| *byte = 0);
                }
            });
        }
    }
}

fn run_of(case: &Case) -> Option<&RunCase> {
    match case {
        Case::Run(run) | Case::Pair { first: run, .. } => Some(run),
        _ => None,
    }
}

fn run_mut(case: &mut Case) -> Option<&mut RunCase> {
    match case {
        Case::Run(run) | Case::Pair { first: run, .. } => Some(run),
        _ => None,
    }
}

fn list_of(case: &Case) -> Option<&[u8]> {
    match case {
        Case::Shown { list, .. } => Some(list),
        _ => run_of(case).map(|run| &run.directives[..]),
    }
}

fn list_mut(case: &mut Case) -> Option<&mut Vec<u8>> {
    match case {
        Case::Shown { list, .. } => Some(list),
        _ => run_mut(case).map(|run| &mut run.directives),
    }
}

fn registers_mut(case: &mut Case) -> Vec<&mut Vec<u32>> {
    match case {
        Case::Run(run) => vec![&mut run.registers],
        Case::Pair { first, registers, .. } => vec![&mut first.registers, registers],
        _ => Vec::new(),
    }
}

fn memories_mut(case: &mut Case) -> Vec<&mut Vec<u32>> {
    match case {
        Case::Run(run) => vec![&mut run.memory],
        Case::Pair { first, memory, .. } => vec![&mut first.memory, memory],
        _ => Vec::new(),
    }
}

fn with_table(case: &Case, bytes: Vec<u8>) -> Case {
    let mut case = case.clone();
    match &mut case {
        Case::Check { table } | Case::Shown { table, .. } => *table = bytes,
        Case::Run(run) | Case::Pair { first: run, .. } => run.table = bytes,
    }
    case
}

/// The directives one by one, and what is none at the end.
fn directives_of(list: &[u8]) -> Vec<Vec<u8>> {
    let mut all = Vec::new();
    let mut at = 0;
    while let Some((_, length)) = Directive::decode(&list[at..]) {
        all.push(list[at..at + length].to_vec());
        at += length;
    }
    if at < list.len() {
        all.push(list[at..].to_vec());
    }
    all
}

/// The table's records as text, without the places that they name: assembled, they name the right ones.
fn lines_of(case: &Case) -> Vec<String> {
    let text = disassemble(case.table());
    let records = text.lines().map(|line| {
        let end = line.find(&[';', '@'][..]).unwrap_or(line.len());
        line[..end].trim().to_string()
    });
    records.filter(|line| !line.is_empty()).collect()
}

fn with_lines(case: &Case, lines: &[String]) -> Option<Case> {
    let bytes = assemble(&lines.join("\n")).ok()?;
    Some(with_table(case, bytes))
}

/// The lines without a function's signature, its records and every CALL of it; later functions count one less.
fn without_function(lines: &[String], function: usize) -> Vec<String> {
    let (mut signatures, mut returns) = (0, 0);
    let mut kept = Vec::new();
    for line in lines {
        let words: Vec<&str> = line.split_whitespace().collect();
        let here = match words[0] {
            "signature" => {
                signatures += 1;
                signatures - 1 == function
            }
            "sizes" | "array" => false,
            _ => returns == function,
        };
        returns += usize::from(words[0] == "return");
        let called = words.get(1).and_then(|word| word.strip_prefix('f')?.parse::<usize>().ok());
        match (words[0], called) {
            _ if here => {}
            ("sizes", _) => {
                let functions = words[3].parse::<usize>().unwrap_or(1);
                kept.push(format!("sizes {} {} {}", words[1], words[2], functions - 1));
            }
            ("call", Some(of)) if of == function => {}
            ("call", Some(of)) if of > function => {
                kept.push(line.replacen(&format!("f{}", of), &format!("f{}", of - 1), 1));
            }
            _ => kept.push(line.clone()),
        }
    }
    kept
}

/// The lines that open, divide and close the block that is opened at a line; none if that line opens none.
fn block_at(lines: &[String], at: usize) -> Vec<usize> {
    let word = |line: &str| line.split_whitespace().next().unwrap_or("").to_string();
    let mut depth = 0;
    let mut bounds = Vec::new();
    for (number, line) in lines.iter().enumerate().skip(at) {
        match word(line).as_str() {
            "if" | "while" => {
                depth += 1;
                if depth == 1 {
                    bounds.push(number);
                }
            }
            "else" if depth == 1 => bounds.push(number),
            "endif" | "endwhile" => {
                if depth == 1 {
                    bounds.push(number);
                    return bounds;
                }
                depth -= 1;
            }
            _ if depth == 0 => return Vec::new(),
            _ => {}
        }
    }
    Vec::new()
}
