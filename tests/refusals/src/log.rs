//! What the prover said of a crate, read off the log of its check.

use crate::edit::Goal;
use std::collections::BTreeSet;

#[derive(Clone, Debug, Default, PartialEq, Eq)]
pub struct Said {
    /// Goals that were tried and refused.
    pub refused: BTreeSet<Goal>,
    /// Goals that were not tried, since they rest on one that was refused.
    pub waiting: BTreeSet<Goal>,
    /// Files of which more goals wait than the log names.
    pub waiting_more: BTreeSet<String>,
    /// Errors that are no refusal of a fact: a goal that the code no longer has, a name that is not there.
    pub unfit: Vec<String>,
    /// The check came to a verdict.
    pub ended: bool,
}

impl Said {
    /// The goal was not tried, or may be one of those that the log does not name.
    pub fn waits(&self, goal: &Goal) -> bool {
        self.waiting.contains(goal) || self.waiting_more.contains(&goal.home)
    }
}

/// The goals that a log calls refused. CRATE is the crate's name.
pub fn parse(crate_name: &str, log: &str) -> Said {
    let mut said = Said::default();
    let function = format!("fn {}::", crate_name);
    // Goals of the function that the next `fn` line names.
    let mut open: Vec<&str> = Vec::new();
    for line in log.lines() {
        if let Some((place, message)) = line.split_once(": error") {
            error(place, message, &mut said);
        } else if let Some(goal) = open_goal(line) {
            open.push(goal);
        } else if let Some(rest) = line.strip_prefix(&function) {
            let (path, outcome) = rest.split_once(": ").unwrap_or((rest, ""));
            open.extend(unclosed(outcome));
            if !open.is_empty() {
                let home = home_of_open(log, path, outcome);
                said.refused.extend(open.drain(..).map(|goal| Goal::new(&home, goal)));
            }
        } else if line.starts_with("logic=") {
            said.ended = true;
        }
    }
    said.unfit.extend(open.iter().map(|goal| format!("{}, of a function that the log does not name", goal)));
    said
}

/// `./proofs/walks/call/Answers.antt:10:13` and `` : `returns`: REASON``, or another error at that place.
fn error(place: &str, message: &str, said: &mut Said) {
    // (a note, or what a reason goes on to say, has a space before)
    if place.contains(char::is_whitespace) || !(place.contains(".antt:") || place.contains(".rt:")) {
        return;
    }
    let home = match place.split_once(".antt:").and_then(|(path, _)| home(path)) {
        Some(home) => home,
        None => return said.unfit.push(format!("{}: error{}", place, message)),
    };
    if let Some((goal, reason)) = message.strip_prefix(": `").and_then(|rest| rest.split_once("`: ")) {
        let goal = Goal::new(home, goal);
        if is_unfit(reason) {
            said.unfit.push(format!("{}: {}", goal, reason));
        } else {
            said.refused.insert(goal);
        }
    } else if let Some((_, names)) = message.split_once(" checked: ").filter(|(head, _)| waits(head)) {
        let (names, more) = match names.rsplit_once(" and ") {
            Some((names, more)) if more.ends_with(" more") => (names, true),
            _ => (names, false),
        };
        let first = |name: &str| name.split_whitespace().next().map(|name| Goal::new(home, name));
        said.waiting.extend(names.split(", ").filter_map(first));
        if more {
            said.waiting_more.insert(home.to_string());
        }
    } else {
        said.unfit.push(format!("{}: error{}", place, message));
    }
}

/// The function whose answers stand in that file (`walks/call`, `walks/+block_one`), or the file of laws (`proofs/Laws`).
fn home(path: &str) -> Option<&str> {
    let start = |folder: &str| path.rfind(&format!("/{}/", folder)).map(|at| at + 1);
    if let Some(at) = start("proofs") {
        let inside = &path[at + "proofs/".len()..];
        let of_function = ["/Answers", "/Invariants", "/Proof"].iter().find_map(|file| inside.strip_suffix(file));
        Some(of_function.unwrap_or(&path[at..]))
    } else {
        start("specs").map(|at| &path[at..])
    }
}

/// `: 2 declarations that depend on `law`, which was rejected, were not`
fn waits(head: &str) -> bool {
    head.contains("that depend") && (head.ends_with(" were not") || head.ends_with(" was not"))
}

/// It is the proof's text that no longer fits the code, and no fact that fails. (What stands in backticks says nothing.)
fn is_unfit(reason: &str) -> bool {
    let plain: String = reason.split('`').step_by(2).collect();
    let said = ["that can be named", "has no field", "is not in scope", "is no name", "operand is missing"];
    let said = said.iter().chain(&["expected the end", "cannot continue"]);
    said.into_iter().any(|words| plain.contains(words))
}

/// `note: src/lib.rt:54:1: it is not proved that the sum fits (`overflow_add-k`)`: a goal without an answer, which the prover
/// could not close by itself.
fn open_goal(line: &str) -> Option<&str> {
    let (_, rest) = line.strip_prefix("note: ")?.split_once(": it is not proved that ")?;
    let (goal, _) = rest.split_once("(`")?.1.split_once("`)")?;
    Some(goal)
}

/// ``no proof: expected answers in FILE; `search` did not prove `returns`, `returns-in-At`; it calls ..``
fn unclosed(outcome: &str) -> impl Iterator<Item = &str> {
    let goals = outcome.split_once("`search` did not prove ").map_or("", |(_, goals)| goals);
    goals.split(';').next().unwrap_or("").split('`').skip(1).step_by(2)
}

/// Where the answers of a function's open goals would stand: in the file that the log asks for, in the file of a cycle that
/// the log names, or in the function's own.
fn home_of_open(log: &str, path: &str, outcome: &str) -> String {
    let asked = outcome.split_once("expected answers in ").and_then(|(_, rest)| rest.split_once(".antt"));
    if let Some(home) = asked.and_then(|(file, _)| home(file)) {
        return home.to_string();
    }
    let own = path.replace("::", "/");
    let (folder, name) = own.rsplit_once('/').map_or(("", own.as_str()), |(folder, name)| (folder, name));
    let start = if folder.is_empty() { "./proofs/+".to_string() } else { format!("./proofs/{}/+", folder) };
    let cycles = log.lines().filter_map(|line| line.strip_prefix(&start)?.split_once('/'));
    let mut members = cycles.map(|(members, _)| members);
    match members.find(|members| format!("_{}_", members).contains(&format!("_{}_", name))) {
        Some(members) => {
            format!("{}+{}", if folder.is_empty() { String::new() } else { format!("{}/", folder) }, members)
        }
        None => own,
    }
}
