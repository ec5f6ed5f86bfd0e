//! `likunjavo-disasm`: a table's bytes in, its text out.

use likunjavo_text::{disassemble, program};
use std::process::ExitCode;

const HELP: &str = "\
usage: likunjavo-disasm [-o OUT] [TABLE]

Reads a table's bytes from the file TABLE, or from standard input, and writes its text to the file OUT, or to
standard output. The text assembles to the same bytes again (likunjavo-asm), whatever the bytes are: where they
do not read as a table, the rest is written as `hex`, and the first line says why.

  -o OUT   the file to write
  --help   this text
";

fn main() -> ExitCode {
    program::convert(HELP, &[], |bytes, _| Ok(disassemble(&bytes).into_bytes()))
}
