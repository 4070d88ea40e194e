//! Runs the tool.

use std::io::Write;
use std::path::{Path, PathBuf};
use std::process::{Command, Stdio};

/// What the tool gave.
#[derive(Debug)]
pub struct Ran {
    pub status: i32,
    pub out: String,
    pub err: String,
}

/// Runs a command line in a folder, with bytes on standard input.
pub fn run_in(folder: &Path, line: &str, input: &[u8]) -> Ran {
    run_by(Command::new(env!("CARGO_BIN_EXE_tester")).args(line.split_whitespace()).current_dir(folder), input)
}

/// Runs words that may have spaces in them.
#[allow(dead_code)]
pub fn run_words(words: &[&str]) -> Ran {
    run_by(Command::new(env!("CARGO_BIN_EXE_tester")).args(words), &[])
}

/// Runs a command line where no other program is found.
#[allow(dead_code)]
pub fn run_alone(line: &str) -> Ran {
    run_by(Command::new(env!("CARGO_BIN_EXE_tester")).args(line.split_whitespace()).env("PATH", ""), &[])
}

/// Runs a command with bytes on standard input.
fn run_by(command: &mut Command, input: &[u8]) -> Ran {
    let mut child = command.stdin(Stdio::piped()).stdout(Stdio::piped()).stderr(Stdio::piped()).spawn().expect("the tool");
    child.stdin.take().expect("its input").write_all(input).unwrap_or(());
    let ran = child.wait_with_output().expect("its output");
    let text = |bytes: Vec<u8>| String::from_utf8(bytes).expect("text");
    Ran { status: ran.status.code().expect("a status"), out: text(ran.stdout), err: text(ran.stderr) }
}

/// Runs a command line that is answered, and gives what it prints.
#[allow(dead_code)]
pub fn answer(line: &str) -> String {
    let ran = run_in(Path::new("."), line, &[]);
    assert!(ran.status == 0 && ran.err.is_empty(), "{line}: {ran:?}");
    ran.out
}

/// The root of the house.
#[allow(dead_code)]
pub fn root() -> PathBuf {
    Path::new(env!("CARGO_MANIFEST_DIR")).join("../..")
}

/// A new folder for a test's files.
#[allow(dead_code)]
pub fn folder(name: &str) -> PathBuf {
    let folder = Path::new(env!("CARGO_TARGET_TMPDIR")).join(name);
    std::fs::create_dir_all(&folder).expect("a folder");
    folder
}
