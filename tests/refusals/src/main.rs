//! `tests/run refusals`: see the usage below, docs/MUST-FAIL.md, and the library of this crate.

use refusals::alone;
use refusals::edit::{Edit, Goal, Wrong};
use std::env;
use std::path::{Path, PathBuf};
use std::process::exit;

const USAGE: &str = "\
refusals                      tries each edit file: each wrong program is refused at the goals that it names
refusals of CRATE..           the same for these crates alone
refusals list [CRATE]         the wrong programs, the goals that refuse them, and why
refusals alone CRATE [LABEL]  tries one wrong program of a crate, or each, by itself";

fn main() {
    let words: Vec<String> = env::args().skip(1).collect();
    let words: Vec<&str> = words.iter().map(String::as_str).collect();
    let root = root().unwrap_or_else(|| stop("no crates.txt here or above"));
    let edits = refusals::edits(&root).unwrap_or_else(|what| stop(&what));
    let bad = match words[..] {
        [] => hold(&root, &edits.iter().collect::<Vec<_>>()),
        ["of", ref names @ ..] if !names.is_empty() => hold(&root, &of_crates(&edits, names)),
        ["list"] => list(&edits, None),
        ["list", name] => list(&edits, Some(name)),
        ["alone", name] => try_alone(&root, &edits, name, None),
        ["alone", name, label] => try_alone(&root, &edits, name, Some(label)),
        _ => stop(USAGE),
    };
    exit(if bad { 1 } else { 0 });
}

fn stop(what: &str) -> ! {
    eprintln!("{}", what);
    exit(2);
}

fn root() -> Option<PathBuf> {
    let here = env::current_dir().ok()?;
    here.ancestors().find(|folder| folder.join("crates.txt").is_file()).map(Path::to_path_buf)
}

/// Tries these edits and holds each log to its edit; says whether something is wrong.
fn hold(root: &Path, edits: &[&Edit]) -> bool {
    let logs = root.join("target/must-fail");
    let mut complaints = refusals::try_all(root, &logs, edits).unwrap_or_else(|what| stop(&what));
    complaints.extend(edits.iter().flat_map(|edit| refusals::complaints(root, &logs, edit)));
    for complaint in &complaints {
        println!("refusals: {}", complaint);
    }
    if complaints.is_empty() {
        let wrongs: usize = edits.iter().map(|edit| edit.wrongs.len()).sum();
        println!(
            "refusals: {} wrong programs in {} edits, each refused at the goals that it names",
            wrongs,
            edits.len()
        );
    }
    !complaints.is_empty()
}

fn list(edits: &[Edit], only: Option<&str>) -> bool {
    let wanted: Vec<&Edit> = of_crate(edits, only).collect();
    for edit in &wanted {
        for wrong in &edit.wrongs {
            println!("{} {}", edit.crate_name, wrong.label);
            println!("    refused at {}", joined(&wrong.refused));
            println!("    {}", wrong.why);
        }
    }
    if wanted.is_empty() {
        eprintln!("no crate of that name has an edit");
    }
    wanted.is_empty()
}

fn try_alone(root: &Path, edits: &[Edit], name: &str, label: Option<&str>) -> bool {
    let all = of_crate(edits, Some(name)).flat_map(|edit| edit.wrongs.iter().map(move |wrong| (edit, wrong)));
    let wanted: Vec<(&Edit, &Wrong)> =
        all.filter(|(_, wrong)| label.map_or(true, |label| label == wrong.label)).collect();
    if wanted.is_empty() {
        eprintln!("no wrong program of that name");
        return true;
    }
    let mut bad = false;
    let complaints = alone::complaints(root, &wanted).unwrap_or_else(|what| stop(&what));
    for ((_, wrong), complaints) in wanted.iter().zip(complaints) {
        println!("{} {}: {}", name, wrong.label, if complaints.is_empty() { "refused as it says" } else { "DIFFERS" });
        for complaint in &complaints {
            println!("    {}", complaint);
        }
        bad |= !complaints.is_empty();
    }
    bad
}

/// The edits of these crates, each of which must have one.
fn of_crates<'a>(edits: &'a [Edit], names: &[&str]) -> Vec<&'a Edit> {
    if let Some(name) = names.iter().find(|name| !edits.iter().any(|edit| edit.crate_name == **name)) {
        stop(&format!("no crate {} has an edit", name));
    }
    edits.iter().filter(|edit| names.contains(&edit.crate_name.as_str())).collect()
}

fn of_crate<'a>(edits: &'a [Edit], only: Option<&'a str>) -> impl Iterator<Item = &'a Edit> {
    edits.iter().filter(move |edit| only.map_or(true, |name| name == edit.crate_name))
}

fn joined(goals: &[Goal]) -> String {
    goals.iter().map(Goal::to_string).collect::<Vec<_>>().join(", ")
}
