//! An independent second implementation of what document 01 (the original of
//! docs/RULES.md) describes: "A reader and type checker for one table (at most
//! 32,768 bytes), and a step machine that runs a table under a directive list."
//!
//! * [`table`]: reading, faults 1 to 9.
//! * [`typing`]: the typing rules, faults 10 to 14.
//! * [`check`], [`line()`]: the verdict and the check program's line.
//! * [`machine`]: [`run`], faults 1 to 9, 15, 16 and stops 20 to 26.
//! * [`message`]: the bytes that a fault message shows.
//! * [`gen`]: seeded tables, directive lists and cases.
//! * [`pairs`]: two runs with different secrets.
//!
//! Orders 1 and 3 of document 02 are built too: LOAD FIXED and
//! STORE FIXED, kinds 1B and 1C, and INIT settling arrays. (Order 2 changes no
//! answer.)
//!
//! Words of 01 and 02 stand in quotation marks in the comments. Tables are written
//! as text by `tools/text`, which the tests here use too.

#![forbid(unsafe_code)]

pub mod gen;
pub mod machine;
pub mod message;
pub mod pairs;
pub mod table;
pub mod typing;

pub use machine::{run, Outcome};
pub use table::Fault;

/// What checking a table gives back.
#[derive(Clone, Copy, Debug, PartialEq, Eq)]
pub enum Verdict {
    /// The table reads and types; it has so many functions and bytes.
    Accepted { functions: usize, bytes: usize },
    /// The first fault, 1 to 14, and its place.
    Refused { number: u8, place: usize },
}

/// "Number 1 first, then a forward reading (2 to 9) that ends at the first
/// fault. [...] Then typing (10 to 14) if checking."
pub fn check(table: &[u8]) -> Verdict {
    match table::read(table).and_then(|read| typing::types(&read).map(|()| read.functions())) {
        Ok(functions) => Verdict::Accepted { functions, bytes: table.len() },
        Err(Fault { number, place }) => Verdict::Refused { number, place },
    }
}

/// The check program's line, without a line end: `accepted F functions B bytes`
/// or `refused N at P`.
pub fn line(verdict: &Verdict) -> String {
    match *verdict {
        Verdict::Accepted { functions, bytes } => {
            format!("accepted {} functions {} bytes", functions, bytes)
        }
        Verdict::Refused { number, place } => format!("refused {} at {}", number, place),
    }
}
