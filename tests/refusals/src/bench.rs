//! Copies of the repository in which crates are changed and checked, outside the checkout.
//!
//! A crate is first checked as it is, once, over what earlier checks kept in its out/. Each trial then begins with what that
//! check kept: mostly seconds, where a check from nothing takes minutes. Trials run side by side, each in a copy of its own,
//! since checks in one copy wait for one another.

use crate::crate_folder;
use crate::edit::Change;
use crate::source::Sources;
use std::collections::hash_map::DefaultHasher;
use std::fs;
use std::hash::{Hash, Hasher};
use std::path::{Path, PathBuf};
use std::process::{self, Command, Stdio};
use std::sync::{mpsc, Mutex};
use std::thread;
use std::time::Instant;

/// The most checks at a time: each takes one processor, and 1 to 4 GB.
const MOST: usize = 4;

/// What a check of a crate stands on, beside the libraries below.
const PARTS: [&str; 3] = ["src", "specs", "proofs"];

/// A crate with changes, to be checked.
pub struct Trial {
    pub crate_name: String,
    pub name: String,
    pub changes: Vec<Change>,
    /// Where the log of its check goes.
    pub log: PathBuf,
}

/// What came of a trial: its log is written, or why there is none.
pub type Tried = Result<(), String>;

/// The copies, until it is dropped.
pub struct Bench {
    room: PathBuf,
    crates: Vec<String>,
    workers: usize,
}

impl Bench {
    /// Copies the crates of the repository at ROOT, with what is proved there already.
    pub fn new(root: &Path) -> Result<Bench, String> {
        let listed = crates_of(root)?;
        let workers = thread::available_parallelism().map_or(1, |number| number.get()).min(MOST);
        // (from here on the folder goes when the bench does)
        let bench = Bench { room: room_for(root)?, crates: listed, workers };
        for name in &bench.crates {
            copy_sources(&crate_folder(root, name), &crate_folder(&bench.base(), name))?;
            for part in ["out/rlib", "out/incremental"] {
                copy_if_there(&crate_folder(root, name).join(part), &crate_folder(&bench.base(), name).join(part))?;
            }
        }
        copy(&root.join("crates.txt"), &bench.base().join("crates.txt"))?;
        for number in 0..bench.workers {
            for name in &bench.crates {
                copy_sources(&crate_folder(root, name), &crate_folder(&bench.place(number), name))?;
            }
            copy(&root.join("crates.txt"), &bench.place(number).join("crates.txt"))?;
        }
        Ok(bench)
    }

    /// Tries all, and says what came of each.
    pub fn try_all(&self, trials: &[Trial]) -> Vec<Tried> {
        let tried = Mutex::new(trials.iter().map(|_| Err("not tried".to_string())).collect::<Vec<Tried>>());
        let (give, take) = mpsc::channel::<usize>();
        let take = Mutex::new(take);
        thread::scope(|scope| {
            for number in 0..self.workers {
                let (take, tried) = (&take, &tried);
                scope.spawn(move || loop {
                    let next = take.lock().expect("no worker panics").recv();
                    let at = match next {
                        Ok(at) => at,
                        Err(_) => break,
                    };
                    let begun = Instant::now();
                    let result = self.try_one(number, &trials[at]);
                    eprintln!("{}: tried in {} s", trials[at].name, begun.elapsed().as_secs());
                    tried.lock().expect("no worker panics")[at] = result;
                });
            }
            for name in &self.crates {
                let of_crate: Vec<usize> = (0..trials.len()).filter(|at| trials[*at].crate_name == *name).collect();
                if of_crate.is_empty() {
                    continue;
                }
                match self.warm(name) {
                    Ok(()) => of_crate.iter().for_each(|at| give.send(*at).expect("the workers wait for more")),
                    Err(what) => {
                        of_crate.iter().for_each(|at| tried.lock().expect("no worker panics")[*at] = Err(what.clone()))
                    }
                }
            }
            drop(give);
        });
        tried.into_inner().expect("no worker panics")
    }

    /// Checks the crate as it is, and keeps apart what that check kept.
    fn warm(&self, crate_name: &str) -> Result<(), String> {
        let folder = crate_folder(&self.base(), crate_name);
        let begun = Instant::now();
        let log = check(&folder, &[])?;
        eprintln!("{}: checked as it is in {} s", crate_name, begun.elapsed().as_secs());
        if !log.lines().any(|line| line.starts_with("logic=proved")) {
            return Err(format!("{} is not proved as it is, so nothing can be told of its wrong programs", crate_name));
        }
        copy(&folder.join("out/incremental"), &self.seed(crate_name))
    }

    /// Checks the crate with the changes in it, in the copy of that number, and puts the crate back.
    fn try_one(&self, number: usize, trial: &Trial) -> Tried {
        let place = self.place(number);
        for name in &self.crates {
            self.give_library(name, &place)?;
        }
        let (right, folder) = (crate_folder(&self.base(), &trial.crate_name), crate_folder(&place, &trial.crate_name));
        copy(&self.seed(&trial.crate_name), &folder.join("out/incremental"))?;
        let mut sources = Sources::of(&right);
        sources.apply(&trial.changes)?;
        for (file, text) in sources.changed() {
            fs::write(folder.join(file), text).map_err(|error| format!("{}: {}", file, error))?;
        }
        let log = check(&folder, &["--jobs", "1"]);
        for part in PARTS {
            copy_if_there(&right.join(part), &folder.join(part))?;
        }
        fs::remove_dir_all(folder.join("out/incremental"))
            .map_err(|error| format!("{}: {}", folder.display(), error))?;
        write(&trial.log, &log?)
    }

    /// The library that a check of a higher crate in that copy uses, once it is built. (rt writes its stamp last.)
    fn give_library(&self, crate_name: &str, place: &Path) -> Result<(), String> {
        let (from, to) = (crate_folder(&self.base(), crate_name), crate_folder(place, crate_name));
        if from.join("out/rlib/stamp").is_file() && !to.join("out/rlib/stamp").is_file() {
            copy(&from.join("out/rlib"), &to.join("out/rlib"))?;
        }
        Ok(())
    }

    fn base(&self) -> PathBuf {
        self.room.join("as-it-is")
    }

    fn place(&self, number: usize) -> PathBuf {
        self.room.join(number.to_string())
    }

    fn seed(&self, crate_name: &str) -> PathBuf {
        self.room.join("kept").join(crate_name)
    }
}

impl Drop for Bench {
    fn drop(&mut self) {
        let _ = fs::remove_dir_all(&self.room);
    }
}

/// The crates that crates.txt lists, in its order.
fn crates_of(root: &Path) -> Result<Vec<String>, String> {
    let file = root.join("crates.txt");
    let text = fs::read_to_string(&file).map_err(|error| format!("{}: {}", file.display(), error))?;
    let lines = text.lines().map(|line| line.split('#').next().unwrap_or(""));
    Ok(lines.filter_map(|line| line.split_once(':')?.0.split_whitespace().next().map(str::to_string)).collect())
}

/// A new folder among the temporary files, of one name for each checkout: rt notes where checks kept their work.
fn room_for(root: &Path) -> Result<PathBuf, String> {
    let mut sum = DefaultHasher::new();
    root.hash(&mut sum);
    let room = std::env::temp_dir().join(format!("refusals-{:016x}", sum.finish()));
    let owner = room.join("process");
    let is_alive = |owner: &str| Path::new("/proc").join(owner.trim()).is_dir();
    if fs::read_to_string(&owner).map_or(false, |owner| is_alive(&owner)) {
        return Err(format!("another run of this program is at work, in {}", room.display()));
    }
    // (what a run that was killed left)
    let _ = fs::remove_dir_all(&room);
    write(&owner, &process::id().to_string())?;
    Ok(room)
}

/// What `rt check` says of the crate in FOLDER.
fn check(folder: &Path, flags: &[&str]) -> Result<String, String> {
    let mut command = Command::new("rt");
    let output = command.arg("check").args(flags).current_dir(folder).stdin(Stdio::null()).output();
    let output = output.map_err(|error| format!("rt check: {}", error))?;
    Ok([output.stdout, output.stderr].iter().map(|bytes| String::from_utf8_lossy(bytes)).collect())
}

/// The crate but its out/ and its must-fail/.
fn copy_sources(from: &Path, to: &Path) -> Result<(), String> {
    PARTS.iter().try_for_each(|part| copy_if_there(&from.join(part), &to.join(part)))
}

fn copy_if_there(from: &Path, to: &Path) -> Result<(), String> {
    if from.exists() {
        copy(from, to)
    } else {
        Ok(())
    }
}

/// Makes TO what FROM is.
fn copy(from: &Path, to: &Path) -> Result<(), String> {
    let fail = |error: std::io::Error| format!("{}: {}", from.display(), error);
    if let Some(above) = to.parent() {
        fs::create_dir_all(above).map_err(fail)?;
    }
    let _ = fs::remove_dir_all(to);
    let copied = Command::new("cp").arg("-a").arg(from).arg(to).status().map_err(fail)?;
    if copied.success() {
        Ok(())
    } else {
        Err(format!("{} was not copied", from.display()))
    }
}

fn write(file: &Path, text: &str) -> Result<(), String> {
    let fail = |error: std::io::Error| format!("{}: {}", file.display(), error);
    if let Some(above) = file.parent() {
        fs::create_dir_all(above).map_err(fail)?;
    }
    fs::write(file, text).map_err(fail)
}
