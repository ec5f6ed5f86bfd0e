//! The files of a crate as the changes of an edit leave them, and the functions in which the changes lie.

use crate::edit::{Change, Goal};
use std::collections::{BTreeMap, BTreeSet};
use std::fmt;
use std::fs;
use std::path::{Path, PathBuf};

pub struct Sources {
    folder: PathBuf,
    texts: BTreeMap<String, String>,
}

/// A function of src/: `walks/call`. Which module declares a method's type is not looked up: it is the method's own or lib.rt,
/// so that the method stands in `walks/Walk` or in `Walk`.
#[derive(Clone, Debug, PartialEq, Eq, PartialOrd, Ord)]
pub struct Function {
    folders: Vec<String>,
    name: String,
    /// The cycle of calls that it is said to be in, by `#[cycle(NAME)]`.
    cycle: Option<String>,
}

impl Function {
    /// Its goals stand in `walks/call`, in `walks/+call` where it calls itself, or, as `call-GOAL`, in the file of its cycle.
    pub fn has(&self, goal: &Goal) -> bool {
        self.folders.iter().any(|folder| {
            let in_cycle = self.cycle.as_ref().map_or(false, |cycle| {
                goal.home == place(folder, &format!("+{}", cycle)) && goal.name.starts_with(&format!("{}-", self.name))
            });
            in_cycle || goal.home == place(folder, &self.name) || goal.home == place(folder, &format!("+{}", self.name))
        })
    }

    /// The proof of the function, or of its cycle, stands in that folder below proofs/.
    pub fn is_proved_in(&self, home: &str) -> bool {
        self.has(&Goal::new(home, &format!("{}-", self.name)))
    }
}

fn place(folder: &str, name: &str) -> String {
    if folder.is_empty() {
        name.to_string()
    } else {
        format!("{}/{}", folder, name)
    }
}

impl fmt::Display for Function {
    fn fmt(&self, f: &mut fmt::Formatter<'_>) -> fmt::Result {
        f.write_str(&place(&self.folders[0], &self.name))
    }
}

impl Sources {
    /// The files of the crate in FOLDER.
    pub fn of(folder: &Path) -> Sources {
        Sources { folder: folder.to_path_buf(), texts: BTreeMap::new() }
    }

    /// Makes the changes, as rt does: each `old:` text must stand once in its file as changed so far. Answers the functions of
    /// src/ in which they lie.
    pub fn apply(&mut self, changes: &[Change]) -> Result<BTreeSet<Function>, String> {
        let mut functions = BTreeSet::new();
        for change in changes {
            let text = self.text(&change.file)?;
            let at = match text.match_indices(&change.old).map(|(at, _)| at).collect::<Vec<_>>()[..] {
                [at] => at,
                [] => return Err(format!("not in {}: {}", change.file, change.old)),
                _ => return Err(format!("more than once in {}: {}", change.file, change.old)),
            };
            let after = at + change.old.len();
            if let Some(module) = change.file.strip_prefix("src/") {
                functions.extend(function_at(module, &text[..after]));
            }
            let changed = [&text[..at], &change.new, &text[after..]].concat();
            self.texts.insert(change.file.clone(), changed);
        }
        Ok(functions)
    }

    /// The files that were changed, as they are now.
    pub fn changed(&self) -> impl Iterator<Item = (&String, &String)> {
        self.texts.iter()
    }

    /// A file as it is now.
    pub fn text(&self, file: &str) -> Result<String, String> {
        match self.texts.get(file) {
            Some(text) => Ok(text.clone()),
            None => fs::read_to_string(self.folder.join(file)).map_err(|error| format!("{}: {}", file, error)),
        }
    }
}

/// The last function that begins in a text, which is the start of src/MODULE. A method stands in its type's folder.
fn function_at(module: &str, text: &str) -> Option<Function> {
    let lines: Vec<&str> = text.lines().collect();
    let at = lines.iter().rposition(|line| is_head(line))?;
    let name = lines[at].split("fn ").nth(1)?;
    let name = name.split(|letter: char| !(letter.is_alphanumeric() || letter == '_')).next()?;
    // The attributes stand on the lines right above.
    let above = lines[..at].iter().rev().map(|line| line.trim_start());
    let attributes = above.take_while(|line| line.starts_with("#["));
    let cycle = attributes.filter_map(|line| line.strip_prefix("#[cycle(")?.split(')').next()).next();
    let block = if lines[at].starts_with(' ') {
        lines[..at].iter().rev().find(|line| !line.starts_with(' ') && line.contains('{')).and_then(|line| block_name(line))
    } else {
        None
    };
    let module = match module.trim_end_matches(".rt") {
        "lib" | "main" => String::new(),
        module => module.to_string(),
    };
    let folders = match block {
        Some(block) => vec![place(&module, &block), block],
        None => vec![module],
    };
    Some(Function { folders, name: name.to_string(), cycle: cycle.map(str::to_string) })
}

/// `pub(crate) fn name(`, at the start of a line or, in a block, four letters on.
fn is_head(line: &str) -> bool {
    let line = line.strip_prefix("    ").unwrap_or(line);
    line.starts_with("fn ") || (line.starts_with("pub") && line.contains("fn "))
}

/// The folder of the methods in a block: `Table` of `impl<'a> Table<'a> {`, `KindTryFromU8` of `impl TryFrom<u8> for Kind {`.
fn block_name(line: &str) -> Option<String> {
    let rest = line.strip_prefix("impl")?.split('{').next()?;
    let rest = match rest.strip_prefix('<') {
        Some(inside) => inside.split_once('>')?.1,
        None => rest,
    };
    let words = |text: &str| -> String { letters(text).map(capital).collect() };
    Some(match rest.split_once(" for ") {
        Some((of_trait, of_type)) => words(of_type) + &words(of_trait),
        None => letters(rest).next()?.to_string(),
    })
}

/// The names in a type, lifetimes aside.
fn letters(text: &str) -> impl Iterator<Item = &str> {
    let names = text.split(|letter: char| !(letter.is_alphanumeric() || "_'".contains(letter)));
    names.filter(|name| !name.is_empty() && !name.starts_with('\''))
}

fn capital(name: &str) -> String {
    let mut letters = name.chars();
    letters.next().map_or(String::new(), |first| first.to_uppercase().chain(letters).collect())
}
