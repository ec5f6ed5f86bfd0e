//! A case and a difference as text.

use crate::answer::{After, Answer, Difference};
use crate::case::Case;
use crate::text;
use likunjavo_text::disassemble;
use second::gen::RunCase;
use second::machine::Directive;
use second::{line, Outcome};
use std::fmt::Write;

/// Longer cases are not put on a command line.
const LONGEST_ARGUMENTS: usize = 4_000;

/// The case and both answers, for a reader, and the command that replays it: `replay`, then the case, or the file
/// `saved` that holds it where it is too long for a command.
pub fn report(case: &Case, difference: &Difference, replay: &str, saved: &str) -> String {
    let mut out = case_text(case);
    out.push('\n');
    out.push_str(&difference_text(difference));
    let line = case.text();
    let command = match line.len() {
        0..=LONGEST_ARGUMENTS => format!("{} {}", replay, line),
        _ => format!("{} < {}", replay, saved),
    };
    let _ = write!(out, "\nTo see it again:\n\n    {}\n", command);
    out
}

/// The case for a reader.
pub fn case_text(case: &Case) -> String {
    let mut out = String::new();
    let _ = writeln!(out, "The table, {} bytes:\n", case.table().len());
    for row in disassemble(case.table()).lines() {
        let _ = writeln!(out, "    {}", row);
    }
    match case {
        Case::Check { .. } => {}
        Case::Shown { list, number, place, .. } => {
            let _ = writeln!(out, "\nList: {}\nNumber {} at {}", text::hex(list), number, place);
        }
        Case::Run(run) => lent_text(&mut out, run),
        Case::Pair { first, registers, memory } => {
            lent_text(&mut out, first);
            let _ = writeln!(out, "The second run's registers: {}", text::words(registers));
            let _ = writeln!(out, "The second run's memory: {}", text::words(memory));
        }
    }
    out
}

fn lent_text(out: &mut String, run: &RunCase) {
    let _ =
        writeln!(out, "\nThe list, {} bytes: {}", run.directives.len(), list_text(&run.directives));
    let _ = writeln!(out, "Registers: {}", text::words(&run.registers));
    let _ = writeln!(out, "Memory: {}", text::words(&run.memory));
    let room = &run.observations;
    let _ =
        writeln!(out, "Room for {} bytes of observations, before: {}", room.len(), text::hex(room));
}

fn list_text(list: &[u8]) -> String {
    let mut words = Vec::new();
    let mut at = 0;
    while let Some((directive, length)) = Directive::decode(&list[at..]) {
        words.push(match directive {
            Directive::Plain => "plain".to_string(),
            Directive::Branch { way } => format!("branch {}", u8::from(way)),
            Directive::Stray { array, index } => format!("stray a{}[{}]", array, index),
            Directive::Return { place } => format!("return {}", place),
        });
        at += length;
    }
    if at < list.len() {
        words.push(format!("hex {}", text::hex(&list[at..])));
    }
    words.join(", ")
}

/// An answer for a reader.
pub fn answer_text(answer: &Answer) -> String {
    rows_of(answer).iter().map(|(name, value)| format!("{:<36} {}\n", name, value)).collect()
}

fn difference_text(difference: &Difference) -> String {
    match difference {
        Difference::Answers { rattle, second } => {
            columns("Rattle", &rows_of(rattle), "second implementation", &rows_of(second))
        }
        Difference::Leak { one, other } => {
            let mut out = "The table passes and the states differ in secrets only, \
                           but the two runs can be told apart:\n\n"
                .to_string();
            out.push_str(&columns(
                "first run",
                &rows_of_run("", one),
                "second run",
                &rows_of_run("", other),
            ));
            out
        }
        Difference::Outside { rattle } => {
            format!("What is shown does not lie within table or list: {:?}\n", rattle)
        }
    }
}

type Rows = Vec<(String, String)>;

/// Two answers beside each other.
fn columns(ours: &str, rows: &Rows, theirs: &str, other_rows: &Rows) -> String {
    let mut out = format!("{:<36} {:<40} {}\n", "", ours, theirs);
    for ((name, ours), (_, theirs)) in rows.iter().zip(other_rows) {
        let mark = if ours == theirs { "" } else { "  <-- differs" };
        let _ = writeln!(out, "{:<36} {:<40} {}{}", name, ours, theirs, mark);
    }
    out
}

/// An answer as names and values.
fn rows_of(answer: &Answer) -> Rows {
    match answer {
        Answer::Check(verdict, part) => {
            vec![
                ("verdict".to_string(), line(verdict)),
                ("message".to_string(), text::shows(*part)),
            ]
        }
        Answer::Shown(part) => vec![("message".to_string(), text::shows(*part))],
        Answer::Run(after) => rows_of_run("", after),
        Answer::Pair(one, other) => {
            let mut rows = rows_of_run("first run: ", one);
            rows.extend(rows_of_run("second run: ", other));
            rows
        }
    }
}

fn rows_of_run(run: &str, after: &After) -> Rows {
    let ended = match after.outcome {
        Outcome::Refused { number, place } => format!("refused {} at {}", number, place),
        Outcome::Stopped { number, place, steps, .. } => {
            format!("stopped {} at {} after {} steps", number, place, steps)
        }
    };
    let flags = match after.outcome {
        Outcome::Refused { .. } => "-".to_string(),
        Outcome::Stopped { misspeculating, masked, .. } => format!("{} {}", misspeculating, masked),
    };
    [
        ("ended", ended),
        ("misspeculating, masked", flags),
        ("message", text::shows(after.shown)),
        ("registers", text::words(&after.registers)),
        ("memory", text::words(&after.memory)),
        ("observations", text::hex(&after.observations)),
        ("nothing else written", after.margins_kept.to_string()),
    ]
    .iter()
    .map(|(name, value)| (format!("{}{}", run, name), value.clone()))
    .collect()
}
