//! What the two programs share: a file in, a file out.

use std::ffi::OsString;
use std::fs;
use std::io::{self, Read, Write};
use std::path::{Path, PathBuf};
use std::process::ExitCode;

const FAILED: u8 = 1;
const NOT_UNDERSTOOD: u8 = 2;

/// What a program is asked for.
#[derive(Clone, Debug, Default, PartialEq, Eq)]
pub struct Arguments {
    pub help: bool,
    /// The flags that were given, of those that the program knows.
    pub flags: Vec<String>,
    /// The file to read; standard input if there is none.
    pub input: Option<PathBuf>,
    /// The file to write; standard output if there is none.
    pub output: Option<PathBuf>,
}

impl Arguments {
    /// Reads `[FLAG..] [-o OUT] [FILE]`, in any order; `-` is standard input or output.
    pub fn parse(
        words: impl IntoIterator<Item = OsString>,
        flags: &[&str],
    ) -> Result<Arguments, String> {
        let mut arguments = Arguments::default();
        let mut words = words.into_iter();
        let mut files = 0;
        while let Some(word) = words.next() {
            match word.to_str() {
                Some("--help") | Some("-h") => arguments.help = true,
                Some("-o") => {
                    let file = words.next().ok_or("-o: which file?")?;
                    arguments.output = named(file);
                }
                Some(flag) if flags.contains(&flag) => arguments.flags.push(flag.to_string()),
                Some(flag) if flag.starts_with('-') && flag != "-" => {
                    return Err(format!("{}: no such option", flag));
                }
                _ if files > 0 => return Err("more than one file to read".to_string()),
                _ => {
                    arguments.input = named(word);
                    files += 1;
                }
            }
        }
        Ok(arguments)
    }
}

fn named(file: OsString) -> Option<PathBuf> {
    if file == "-" {
        None
    } else {
        Some(PathBuf::from(file))
    }
}

/// Reads a file, makes of its bytes what `work` gives (it gets the flags too), and writes that. Nothing is
/// written where the work fails. The program then ends with 1, and with 2 where its arguments are not
/// understood.
pub fn convert(
    help: &str,
    flags: &[&str],
    work: impl Fn(Vec<u8>, &[String]) -> Result<Vec<u8>, String>,
) -> ExitCode {
    let arguments = match Arguments::parse(std::env::args_os().skip(1), flags) {
        Ok(arguments) => arguments,
        Err(error) => {
            eprintln!("{}\n{}", error, help.lines().next().unwrap_or(""));
            return ExitCode::from(NOT_UNDERSTOOD);
        }
    };
    if arguments.help {
        return ended(write(None, help.as_bytes()));
    }
    let input = arguments.input.as_deref();
    ended(read(input).and_then(|bytes| {
        let made = work(bytes, &arguments.flags)
            .map_err(|error| format!("{}: {}", name(input, "standard input"), error))?;
        write(arguments.output.as_deref(), &made)
    }))
}

fn ended(result: Result<(), String>) -> ExitCode {
    match result {
        Ok(()) => ExitCode::SUCCESS,
        Err(error) => {
            eprintln!("{}", error);
            ExitCode::from(FAILED)
        }
    }
}

fn name(file: Option<&Path>, other: &str) -> String {
    file.map_or(other.to_string(), |file| file.display().to_string())
}

fn read(file: Option<&Path>) -> Result<Vec<u8>, String> {
    let bytes = match file {
        Some(file) => fs::read(file),
        None => {
            let mut bytes = Vec::new();
            io::stdin().lock().read_to_end(&mut bytes).map(|_| bytes)
        }
    };
    bytes.map_err(|error| format!("{}: {}", name(file, "standard input"), error))
}

fn write(file: Option<&Path>, bytes: &[u8]) -> Result<(), String> {
    let written = match file {
        Some(file) => fs::write(file, bytes),
        None => {
            let mut out = io::stdout();
            out.write_all(bytes).and_then(|()| out.flush())
        }
    };
    written.map_err(|error| format!("{}: {}", name(file, "standard output"), error))
}
