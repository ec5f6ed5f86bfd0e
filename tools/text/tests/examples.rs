//! Every table of tests/examples has its text.

use likunjavo_text::{assemble, disassemble};
use std::collections::BTreeSet;
use std::fs;
use std::path::{Path, PathBuf};

fn folder() -> PathBuf {
    Path::new(env!("CARGO_MANIFEST_DIR")).join("../../tests/examples")
}

/// The names of the files that end so.
fn names(end: &str) -> BTreeSet<String> {
    let files = fs::read_dir(folder()).expect("tests/examples is there");
    let names = files.map(|file| file.expect("a file").file_name().into_string().expect("text"));
    names.filter_map(|name| name.strip_suffix(end).map(str::to_string)).collect()
}

#[test]
fn each_table_has_its_text() {
    let tables = names(".table");
    assert_eq!(tables, names(".txt"));
    assert!(tables.len() >= 20, "{:?}", tables);
    for name in tables {
        let table = fs::read(folder().join(format!("{}.table", name))).expect("it can be read");
        let text = fs::read_to_string(folder().join(format!("{}.txt", name))).expect("text");
        let made = assemble(&text);
        assert!(made.as_deref() == Ok(&table[..]), "{}: {:?}", name, made.err());
        assert!(assemble(&disassemble(&table)).as_deref() == Ok(&table[..]), "{}", name);
    }
}
