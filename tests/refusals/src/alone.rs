//! Wrong programs, each by itself: the edit loop for a new one, and the proof that those of a file do not hide one another.

use crate::bench::{Bench, Trial};
use crate::edit::{Edit, Wrong};
use crate::{judge, log};
use std::fs;
use std::path::{Path, PathBuf};

/// Where the log of a wrong program goes that is tried by itself.
pub fn log_of(root: &Path, wrong: &Wrong) -> PathBuf {
    root.join("target/alone").join(format!("{}.log", wrong.label))
}

/// What does not hold of each of these wrong programs when it is tried by itself.
pub fn complaints(root: &Path, wanted: &[(&Edit, &Wrong)]) -> Result<Vec<Vec<String>>, String> {
    let trials: Vec<Trial> = wanted.iter().map(|(edit, wrong)| trial(root, edit, wrong)).collect();
    let tried = Bench::new(root)?.try_all(&trials);
    let judged = wanted.iter().zip(&trials).zip(tried).map(|(((edit, wrong), trial), tried)| {
        let single = Edit { wrongs: vec![(*wrong).clone()], ..(*edit).clone() };
        match tried.and_then(|()| fs::read_to_string(&trial.log).map_err(|error| error.to_string())) {
            Ok(said) => judge::of_log(&single, &log::parse(&edit.crate_name, &said)),
            Err(what) => vec![what],
        }
    });
    Ok(judged.collect())
}

fn trial(root: &Path, edit: &Edit, wrong: &Wrong) -> Trial {
    Trial {
        crate_name: edit.crate_name.clone(),
        name: format!("{} {}", edit.crate_name, wrong.label),
        changes: wrong.changes.clone(),
        log: log_of(root, wrong),
    }
}
