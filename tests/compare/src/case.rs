//! One case: what both sides are lent. As text it is one line, in the words of [`crate::text`]:
//!
//! ```text
//! check TABLE
//! shown TABLE LIST NUMBER PLACE
//! run TABLE REGISTERS MEMORY LIST OBSERVATIONS
//! pair TABLE REGISTERS MEMORY LIST OBSERVATIONS OTHER-REGISTERS OTHER-MEMORY
//! ```

use crate::text;
use second::gen::RunCase;

#[derive(Clone, Debug, PartialEq, Eq)]
pub enum Case {
    /// A table to check, and what the verdict's message shows.
    Check { table: Vec<u8> },
    /// What any number and place shows, whether or not they are a fault of the table or list.
    Shown { table: Vec<u8>, list: Vec<u8>, number: u8, place: usize },
    /// A run.
    Run(RunCase),
    /// Two runs under one list, the second from other registers and memory.
    Pair { first: RunCase, registers: Vec<u32>, memory: Vec<u32> },
}

impl Case {
    pub fn table(&self) -> &[u8] {
        match self {
            Case::Check { table } | Case::Shown { table, .. } => table,
            Case::Run(run) | Case::Pair { first: run, .. } => &run.table,
        }
    }

    pub fn text(&self) -> String {
        match self {
            Case::Check { table } => format!("check {}", text::hex(table)),
            Case::Shown { table, list, number, place } => {
                format!("shown {} {} {} {}", text::hex(table), text::hex(list), number, place)
            }
            Case::Run(run) => format!("run {}", text::run_text(run)),
            Case::Pair { first, registers, memory } => format!(
                "pair {} {} {}",
                text::run_text(first),
                text::words(registers),
                text::words(memory)
            ),
        }
    }

    pub fn parse(line: &str) -> Option<Case> {
        let line = line.trim();
        let (sort, rest) = line.split_at(line.find(' ')?);
        let mut fields = rest.split_whitespace();
        Some(match sort {
            "check" => Case::Check { table: text::unhex(fields.next()?)? },
            "shown" => Case::Shown {
                table: text::unhex(fields.next()?)?,
                list: text::unhex(fields.next()?)?,
                number: fields.next()?.parse().ok()?,
                place: fields.next()?.parse().ok()?,
            },
            "run" => Case::Run(text::parse_run(rest)?),
            "pair" => Case::Pair {
                first: text::parse_run(rest)?,
                registers: text::unwords(fields.nth(5)?)?,
                memory: text::unwords(fields.next()?)?,
            },
            _ => return None,
        })
    }
}
