//! Holds an edit file to the log of its check, and to the code that it changes.
//!
//! What a complaint protects:
//!
//! * Each wrong program names a goal of its own that it makes false, and that goal was refused: none hides behind another.
//! * Every refused goal is named: nothing is refused that nobody claimed.
//! * A goal of a function is made of that function's code and of its callees' contracts. So a wrong program that changes code
//!   names goals of the functions it changes only, and no two of a file change the same function. (Wrong definitions have no
//!   such walls: [`crate::alone`] tries each by itself.)
//! * A goal that stands after a test is called by it (`returns-then-n-gt32`). Where a wrong program makes another test of it, it
//!   calls the goal, and the place, otherwise in the proof too (`gt32`, now `gt33`): so it is the fact that refuses it, and not a
//!   name. Nothing else of a proof may change, nor any proof of a function that stays.

use crate::edit::{Edit, Goal, Wrong};
use crate::log::Said;
use crate::source::{Function, Sources};
use std::collections::{BTreeMap, BTreeSet};

/// What does not hold of an edit file by itself, whatever the prover says.
pub fn of_text(edit: &Edit, sources: &mut Sources) -> Vec<String> {
    let mut complaints = Vec::new();
    let mut taken: BTreeSet<Function> = BTreeSet::new();
    if edit.wrongs.is_empty() {
        complaints.push("it has no `wrong:` line".to_string());
    }
    for (at, wrong) in edit.wrongs.iter().enumerate() {
        let mut complain = |what: String| complaints.push(format!("{}: {}", wrong.label, what));
        if wrong.changes.is_empty() {
            complain("it changes nothing".to_string());
        }
        if wrong.refused.is_empty() {
            complain("it names no goal that it makes false".to_string());
        } else if !wrong.refused.iter().any(|goal| is_own(edit, at, goal)) {
            complain("each goal that it makes false is another's too".to_string());
        }
        if wrong.why.is_empty() {
            complain("it does not say why".to_string());
        }
        let proofs = proofs_before(wrong, sources);
        let functions = match sources.apply(&wrong.changes) {
            Ok(functions) => functions,
            Err(what) => {
                complain(what);
                continue;
            }
        };
        if let Some(function) = functions.iter().find(|function| taken.contains(*function)) {
            complain(format!("another wrong program of the file changes {} too", function));
        }
        if let Some(goal) = strange(wrong, &functions) {
            complain(format!("{} is no goal of a function that it changes", goal));
        }
        for (file, before) in proofs {
            if !functions.iter().any(|function| is_proof_of(&file, function)) {
                complain(format!("{} is no proof of a function that it changes", file));
            } else if !only_renames(&before, &sources.text(&file).unwrap_or_default()) {
                complain(format!("more than names of goals and places changes in {}", file));
            }
        }
        taken.extend(functions);
    }
    complaints
}

/// What does not hold of an edit file by what the prover said.
pub fn of_log(edit: &Edit, said: &Said) -> Vec<String> {
    let mut complaints: Vec<String> = said.unfit.iter().map(|error| format!("no fact: {}", error)).collect();
    if !said.ended {
        complaints.push("its check came to no verdict".to_string());
    }
    let mut named: BTreeSet<&Goal> = BTreeSet::new();
    for wrong in &edit.wrongs {
        let missing = wrong.refused.iter().filter(|goal| !said.refused.contains(goal));
        complaints.extend(missing.map(|goal| format!("{}: NOT REFUSED at {}", wrong.label, goal)));
        let proved = wrong.unproved.iter().filter(|goal| !said.refused.contains(goal) && !said.waits(goal));
        complaints.extend(proved.map(|goal| format!("{}: still proved: {}", wrong.label, goal)));
        named.extend(wrong.goals());
    }
    let unnamed = said.refused.iter().filter(|goal| !named.contains(goal));
    complaints.extend(unnamed.map(|goal| format!("refused, and no line names it: {}", goal)));
    complaints
}

/// No other wrong program of the file names the goal.
fn is_own(edit: &Edit, at: usize, goal: &Goal) -> bool {
    let others = edit.wrongs.iter().enumerate().filter(|(other, _)| *other != at);
    !others.flat_map(|(_, wrong)| wrong.goals()).any(|named| named == goal)
}

/// A goal that a wrong program cannot make false, since it changes only code, and of other functions.
fn strange<'a>(wrong: &'a Wrong, functions: &BTreeSet<Function>) -> Option<&'a Goal> {
    if wrong.changes.iter().any(|change| change.file.starts_with("specs/")) {
        return None;
    }
    wrong.goals().find(|goal| !functions.iter().any(|function| function.has(goal)))
}

/// `proofs/walks/call/Answers.antt` is a proof of `walks/call`.
fn is_proof_of(file: &str, function: &Function) -> bool {
    let home = file.strip_prefix("proofs/").and_then(|file| file.rsplit_once('/')).map(|(home, _)| home);
    home.map_or(false, |home| function.is_proved_in(home))
}

/// The proof files that a wrong program changes, as they are.
fn proofs_before(wrong: &Wrong, sources: &Sources) -> BTreeMap<String, String> {
    let files = wrong.changes.iter().map(|change| &change.file).filter(|file| file.starts_with("proofs/"));
    files.filter_map(|file| Some((file.clone(), sources.text(file).ok()?))).collect()
}

/// Two texts of a proof differ, comments and spaces aside, in names of goals and of places in the code alone: each is called
/// otherwise throughout, by a name that did not stand there.
fn only_renames(before: &str, after: &str) -> bool {
    let (before, after) = (without_comments(before), without_comments(after));
    let (old, new) = (words(&before), words(&after));
    let mut names: BTreeMap<&str, &str> = BTreeMap::new();
    old.len() == new.len()
        && old.iter().zip(&new).all(|(&word, &now)| {
            let is_renamed = is_place(word) && is_place(now) && !old.contains(&now);
            *names.entry(word).or_insert(now) == now && (word == now || is_renamed)
        })
}

/// `if-a-le1`, `in-Got`, or a goal behind one: `returns-then-a-le1`.
fn is_place(word: &str) -> bool {
    let is_branch = |part: &str| ["if", "then", "else", "in"].contains(&part);
    let parts: Vec<&str> = word.split('-').collect();
    parts.len() > 1 && parts[..parts.len() - 1].iter().any(|part| is_branch(part))
}

/// A text of antt without what stands in `{- -}`. (Comments of the other sort are held to what they were, as text is.)
fn without_comments(text: &str) -> String {
    let mut parts = text.split("{-");
    let first = parts.next().unwrap_or("");
    parts.fold(first.to_string(), |kept, part| kept + part.split_once("-}").map_or("", |(_, after)| after))
}

/// The names of a text, and each other letter that is no space by itself.
fn words(text: &str) -> Vec<&str> {
    let is_of_name = |letter: char| letter.is_alphanumeric() || letter == '_' || letter == '-';
    let mut words = Vec::new();
    let mut rest = text;
    while let Some(letter) = rest.chars().next() {
        let length = match rest.find(|letter: char| !is_of_name(letter)) {
            Some(0) => letter.len_utf8(),
            Some(length) => length,
            None => rest.len(),
        };
        if !letter.is_whitespace() {
            words.push(&rest[..length]);
        }
        rest = &rest[length..];
    }
    words
}
