//! `replay [--break ERROR] CASE..`, or lines on standard input: shows what both sides answer to a case (see
//! `compare::case`). Ends with 1 where they differ, with 2 where a line is no case.

use compare::answer::compared;
use compare::case::Case;
use compare::planted::{sides, Error};
use compare::report::{answer_text, case_text, report};
use std::io::{self, BufRead};
use std::process::exit;

/// Whether the two agree.
fn replay(line: &str, error: Option<Error>) -> bool {
    let case = Case::parse(line).unwrap_or_else(|| {
        eprintln!("no case: {}", line);
        exit(2)
    });
    let (rattle, second) = sides(error);
    match compared(&case, &*rattle, &*second) {
        Ok(answer) => println!("{}\nBoth answer:\n\n{}", case_text(&case), answer_text(&answer)),
        Err(difference) => {
            println!("DIFFERENT:\n\n{}", report(&case, &difference, "tests/run replay", "FILE"));
            return false;
        }
    }
    true
}

fn main() -> io::Result<()> {
    let mut arguments: Vec<String> = std::env::args().skip(1).collect();
    let mut error = None;
    if arguments.len() >= 2 && arguments[0] == "--break" {
        error = Error::named(&arguments[1]);
        arguments.drain(..2);
    }
    let lines: Vec<String> = match arguments.len() {
        0 => io::stdin().lock().lines().collect::<io::Result<_>>()?,
        _ => vec![arguments.join(" ")],
    };
    let lines = lines.iter().filter(|line| !line.trim().is_empty());
    let different = lines.filter(|line| !replay(line, error)).count();
    exit(i32::from(different > 0))
}
