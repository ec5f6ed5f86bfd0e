//! `likunjavo-asm`: a table's text in, its bytes out.

use likunjavo_text::{assemble, program};
use std::process::ExitCode;

const HELP: &str = "\
usage: likunjavo-asm [--hex] [-o OUT] [TEXT]

Reads a table's text from the file TEXT, or from standard input, and writes the table's bytes to the file OUT,
or to standard output. Where the text is wrong it says in which line, writes nothing, and ends with 1. Whether
the table passes the check is not looked at.

  -o OUT   the file to write
  --hex    the bytes as hexadecimal text, in one line
  --help   this text

One line is one record, `;` starts a comment, and places are filled in:

  sizes 2 1 1                           registers, arrays, functions
  array 4                               words
  signature unknown PT/S updated SS/S   in and out: status, levels of registers/arrays (P, T, S)
  const r0 5                            dest value
  add r0 r1 r2                          dest left right; also sub mul xor and or less equal
  select r0 r1 r2 r3                    dest cond yes no
  load r0 a0[r1]                        store a0[r1] r0
  load r0 a0[7]                         store a0[7] r0: at a fixed place
  init                                  update r0 nonzero (or zero)
  protect r0 r1                         dest source
  call f0                               or: call f0 marked
  if r0 .. else .. endif                while r0 unknown PT/S .. endwhile
  return

For tables that are wrong on purpose, see the documentation of the crate likunjavo-text.
";

fn main() -> ExitCode {
    program::convert(HELP, &["--hex"], |text, flags| {
        let text = String::from_utf8(text).map_err(|_| "this is no text (UTF-8)".to_string())?;
        let bytes = assemble(&text)?;
        if flags.is_empty() {
            return Ok(bytes);
        }
        let words: Vec<String> = bytes.iter().map(|byte| format!("{:02X}", byte)).collect();
        Ok((words.join(" ") + "\n").into_bytes())
    })
}
