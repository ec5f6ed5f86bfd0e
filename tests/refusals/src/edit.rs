//! An edit file: the wrong programs of one crate that are tried in one check.
//!
//! rt reads its `file:`, `old:` and `new:` lines and passes over the rest:
//!
//! ```text
//! wrong: LABEL              begins a wrong program; all lines up to the next `wrong:` are its own
//! file: / old: / new:       what it changes, as rt takes it
//! refused: HOME GOAL..      goals that it makes false
//! unproved: HOME GOAL..     goals that stay true, and whose proof no longer fits or rests on a false one
//! why: SENTENCE             what the refused goals say, and why that is false now
//! ```
//!
//! HOME is the file that states the goal: `proofs/NAME` or `specs/NAME` for a law, `MODULE/FUNCTION` for a goal of a function
//! (`MODULE/+FUNCTION` where it calls itself, `MODULE/+CYCLE` in a cycle of calls), with or without a proof file of its own.

use std::fmt;

/// A goal, by the place that states it and its name there.
#[derive(Clone, Debug, PartialEq, Eq, PartialOrd, Ord)]
pub struct Goal {
    pub home: String,
    pub name: String,
}

impl Goal {
    pub fn new(home: &str, name: &str) -> Goal {
        Goal { home: home.to_string(), name: name.to_string() }
    }
}

impl fmt::Display for Goal {
    fn fmt(&self, f: &mut fmt::Formatter<'_>) -> fmt::Result {
        write!(f, "{} {}", self.home, self.name)
    }
}

/// One text of a file of the crate, and what stands there in the wrong program.
#[derive(Clone, Debug, PartialEq, Eq)]
pub struct Change {
    pub file: String,
    pub old: String,
    pub new: String,
}

#[derive(Clone, Debug, Default, PartialEq, Eq)]
pub struct Wrong {
    pub label: String,
    pub changes: Vec<Change>,
    pub refused: Vec<Goal>,
    pub unproved: Vec<Goal>,
    pub why: String,
}

impl Wrong {
    /// All goals that it names.
    pub fn goals(&self) -> impl Iterator<Item = &Goal> {
        self.refused.iter().chain(&self.unproved)
    }
}

#[derive(Clone, Debug, PartialEq, Eq)]
pub struct Edit {
    pub crate_name: String,
    pub label: String,
    pub wrongs: Vec<Wrong>,
}

impl Edit {
    pub fn name(&self) -> String {
        format!("{}/{}", self.crate_name, self.label)
    }
}

/// The wrong programs of an edit file's text; or what is wrong with the text, with its line.
pub fn parse(text: &str) -> Result<Vec<Wrong>, String> {
    let mut wrongs: Vec<Wrong> = Vec::new();
    let (mut file, mut old) = (None, None);
    for (at, line) in text.lines().enumerate() {
        let complain = |what: &str| Err(format!("line {}: {}", at + 1, what));
        let (key, rest) = match line.split_once(':') {
            Some((key, rest)) => (key, rest.strip_prefix(' ').unwrap_or(rest)),
            None if line.trim().is_empty() => continue,
            None => return complain("neither empty nor a line of a known sort"),
        };
        if key == "wrong" {
            wrongs.push(Wrong { label: rest.to_string(), ..Wrong::default() });
            file = None;
            continue;
        }
        let wrong = match wrongs.last_mut() {
            Some(wrong) => wrong,
            None => return complain("it stands before the first `wrong:`"),
        };
        match key {
            "file" => file = Some(rest.to_string()),
            "old" => old = Some(rest.to_string()),
            "new" => match (&file, old.take()) {
                (Some(file), Some(old)) => {
                    wrong.changes.push(Change { file: file.clone(), old, new: rest.to_string() })
                }
                _ => return complain("`new:` without a `file:` and an `old:` of the same wrong program"),
            },
            "refused" => wrong.refused.extend(goals(rest)),
            "unproved" => wrong.unproved.extend(goals(rest)),
            "why" if wrong.why.is_empty() => wrong.why = rest.to_string(),
            "why" => wrong.why = format!("{} {}", wrong.why, rest),
            _ => return complain("a line of an unknown sort"),
        }
    }
    Ok(wrongs)
}

fn goals(line: &str) -> Vec<Goal> {
    let mut words = line.split_whitespace();
    let home = words.next().unwrap_or("");
    words.map(|name| Goal::new(home, name)).collect()
}
