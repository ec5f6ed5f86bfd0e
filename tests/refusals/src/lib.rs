//! Holds what the prover said of the wrong programs to what their edit files claim.
//!
//! `rt ci` tries crates/NAME/must-fail/LABEL.edit as a whole and says that the crate so changed was refused. A file holds
//! several wrong programs here, so that one check serves them all. That each of them is refused for itself, at the goals that
//! it makes false, and that no goal merely vanished, is read off the log of a check of the crate with all of them in it.
//!
//! * [`edit`]: what an edit file says. [`log`]: what the prover said.
//! * [`source`]: the functions that a wrong program changes. [`judge`]: the two held together.
//! * [`bench`]: the copies in which changed crates are checked. [`alone`]: one wrong program by itself, in seconds.

#![forbid(unsafe_code)]

pub mod alone;
pub mod bench;
pub mod edit;
pub mod judge;
pub mod log;
pub mod source;

use bench::{Bench, Trial};
use edit::{Edit, Wrong};
use source::Sources;
use std::fs;
use std::path::{Path, PathBuf};

/// The edit files of a repository, in order of crate and name; or what cannot be read.
pub fn edits(root: &Path) -> Result<Vec<Edit>, String> {
    let mut edits = Vec::new();
    for crate_folder in entries(&root.join("crates"))? {
        let folder = crate_folder.join("must-fail");
        if !folder.is_dir() {
            continue;
        }
        for path in entries(&folder)? {
            let (crate_name, label) = (file_stem(&crate_folder), file_stem(&path));
            let text = fs::read_to_string(&path).map_err(|error| format!("{}: {}", path.display(), error))?;
            let wrongs = edit::parse(&text).map_err(|what| format!("{}: {}", path.display(), what))?;
            edits.push(Edit { crate_name, label, wrongs });
        }
    }
    Ok(edits)
}

/// Checks the crate of each edit with all its wrong programs in it, and leaves each log below LOGS. Answers why there is none.
pub fn try_all(root: &Path, logs: &Path, edits: &[&Edit]) -> Result<Vec<String>, String> {
    let trials: Vec<Trial> = edits.iter().map(|edit| trial(logs, edit)).collect();
    for trial in &trials {
        // (no log of an earlier run is to be read)
        let _ = fs::remove_file(&trial.log);
    }
    let tried = Bench::new(root)?.try_all(&trials);
    Ok(edits.iter().zip(tried).filter_map(|(edit, tried)| Some(format!("{}: {}", edit.name(), tried.err()?))).collect())
}

/// All that does not hold of an edit, by its text and by the log below LOGS.
pub fn complaints(root: &Path, logs: &Path, edit: &Edit) -> Vec<String> {
    let mut sources = Sources::of(&crate_folder(root, &edit.crate_name));
    let mut complaints = judge::of_text(edit, &mut sources);
    let path = log_of(logs, edit);
    match fs::read_to_string(&path) {
        Ok(log) => complaints.extend(judge::of_log(edit, &log::parse(&edit.crate_name, &log))),
        Err(error) => complaints.push(format!("no log: {}: {}", path.display(), error)),
    }
    complaints.iter().map(|what| format!("{}: {}", edit.name(), what)).collect()
}

pub fn crate_folder(root: &Path, crate_name: &str) -> PathBuf {
    root.join("crates").join(crate_name)
}

fn trial(logs: &Path, edit: &Edit) -> Trial {
    let changes = edit.wrongs.iter().flat_map(|wrong: &Wrong| wrong.changes.iter().cloned()).collect();
    Trial { crate_name: edit.crate_name.clone(), name: edit.name(), changes, log: log_of(logs, edit) }
}

fn log_of(logs: &Path, edit: &Edit) -> PathBuf {
    logs.join(&edit.crate_name).join(format!("{}.log", edit.label))
}

fn entries(folder: &Path) -> Result<Vec<PathBuf>, String> {
    let read = fs::read_dir(folder).map_err(|error| format!("{}: {}", folder.display(), error))?;
    let mut paths: Vec<PathBuf> = read.filter_map(|entry| entry.ok().map(|entry| entry.path())).collect();
    paths.sort();
    Ok(paths)
}

fn file_stem(path: &Path) -> String {
    path.file_stem().map_or(String::new(), |stem| stem.to_string_lossy().into_owned())
}
