//! The two programs, run.

use std::fs;
use std::io::Write;
use std::path::PathBuf;
use std::process::{Command, Output, Stdio};

const ASM: &str = env!("CARGO_BIN_EXE_likunjavo-asm");
const DISASM: &str = env!("CARGO_BIN_EXE_likunjavo-disasm");
const EXAMPLES: &str = concat!(env!("CARGO_MANIFEST_DIR"), "/../../tests/examples");

/// Where programs are built for another processor, cargo's runner runs them (tests/run names it).
fn command(program: &str) -> Command {
    match std::env::var("CARGO_TARGET_X86_64_UNKNOWN_LINUX_GNU_RUNNER") {
        Ok(runner) => {
            let mut command = Command::new(runner);
            command.arg(program);
            command
        }
        Err(_) => Command::new(program),
    }
}

fn ran(program: &str, arguments: &[&str], input: &[u8]) -> Output {
    let mut child = command(program)
        .args(arguments)
        .stdin(Stdio::piped())
        .stdout(Stdio::piped())
        .stderr(Stdio::piped())
        .spawn()
        .expect("the program starts");
    // A program that does not read its input may have ended before.
    let _ = child.stdin.take().expect("piped").write_all(input);
    child.wait_with_output().expect("the program ends")
}

/// A file of this test's own.
fn file(name: &str) -> PathBuf {
    let file = PathBuf::from(env!("CARGO_TARGET_TMPDIR")).join(name);
    let _ = fs::remove_file(&file);
    file
}

fn example(name: &str) -> String {
    format!("{}/{}", EXAMPLES, name)
}

fn errors(output: &Output) -> String {
    String::from_utf8_lossy(&output.stderr).into_owned()
}

#[test]
fn from_standard_input_to_standard_output() {
    let table = fs::read(example("hash-fixed.table")).expect("there");
    let text = fs::read(example("hash-fixed.txt")).expect("there");
    assert_eq!(ran(ASM, &[], &text).stdout, table);
    assert_eq!(ran(ASM, &["-", "-o", "-"], &text).stdout, table);
    let listing = ran(DISASM, &[], &table).stdout;
    assert_eq!(ran(ASM, &[], &listing).stdout, table);
    assert_eq!(ran(ASM, &["--hex"], b"hex 1 2 fe").stdout, b"01 02 FE\n");
}

#[test]
fn from_file_to_file() {
    let (listing, table) = (file("files.txt"), file("files.table"));
    let (listing, table) = (listing.to_str().expect("text"), table.to_str().expect("text"));
    let original = example("fault-05.table");
    assert!(ran(DISASM, &["-o", listing, &original], &[]).status.success());
    let output = ran(ASM, &[listing, "-o", table], &[]);
    assert!(output.status.success() && output.stdout.is_empty() && output.stderr.is_empty());
    assert_eq!(fs::read(table).expect("written"), fs::read(original).expect("there"));
}

/// Where the text is wrong nothing is written, and a file that was there stays as it was.
#[test]
fn a_wrong_text_writes_nothing() {
    let (new, old) = (file("new.table"), file("old.table"));
    fs::write(&old, "as it was").expect("written");
    for &path in &[&new, &old] {
        let output = ran(ASM, &["-o", path.to_str().expect("text")], b"init\njump r0\n");
        assert_eq!(output.status.code(), Some(1));
        assert!(output.stdout.is_empty());
        assert_eq!(errors(&output), "standard input: line 2: `jump` is no record\n");
    }
    assert!(!new.exists());
    assert_eq!(fs::read(&old).expect("there"), b"as it was");
    assert!(ran(ASM, &[], b"init\njump r0\n").stdout.is_empty());
    assert_eq!(ran(ASM, &[], b"\xff").status.code(), Some(1));
}

#[test]
fn help_and_arguments() {
    for &program in &[ASM, DISASM] {
        let output = ran(program, &["--help"], &[]);
        assert!(output.status.success());
        assert!(output.stdout.starts_with(b"usage: likunjavo-"));
        for arguments in &[&["--no-such-thing"][..], &["-o"], &["one", "two"]] {
            let output = ran(program, arguments, &[]);
            assert_eq!(output.status.code(), Some(2), "{:?}", arguments);
            assert!(errors(&output).contains("usage: likunjavo-"), "{:?}", arguments);
        }
        let output = ran(program, &["/no/such/file"], &[]);
        assert_eq!(output.status.code(), Some(1));
        assert!(errors(&output).starts_with("/no/such/file: "), "{}", errors(&output));
    }
    assert_eq!(ran(DISASM, &["--hex"], &[]).status.code(), Some(2));
}
