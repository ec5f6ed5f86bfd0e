//! `deep_table`: writes the longest table of deepest nesting that passes, for a measure of the check program's stack.

use std::io::{self, Write};

fn main() -> io::Result<()> {
    io::stdout().write_all(&compare::tables::nested(32_768))
}
