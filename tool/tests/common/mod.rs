//! Runs the program; where the files stand.
#![allow(dead_code)]

use std::io::Write;
use std::path::{Path, PathBuf};
use std::process::{Command, Stdio};

/// What a run of the program came to.
pub struct Ran {
    pub status: i32,
    pub out: String,
    pub errors: String,
}

/// The top of the repository.
pub fn top() -> PathBuf {
    Path::new(env!("CARGO_MANIFEST_DIR")).parent().expect("the repository").to_path_buf()
}

/// The program with these arguments, in the top of the repository.
pub fn program(args: &[&str]) -> Command {
    let mut command = Command::new(env!("CARGO_BIN_EXE_genduvo"));
    command.args(args).current_dir(top());
    command
}

/// Runs the program with these arguments.
pub fn run(args: &[&str]) -> Ran {
    told(program(args).stdin(Stdio::null()).output().expect("the program runs"))
}

/// Runs the program with this standard input.
pub fn fed(args: &[&str], input: &[u8]) -> Ran {
    let mut command = program(args);
    let mut child =
        command.stdin(Stdio::piped()).stdout(Stdio::piped()).stderr(Stdio::piped()).spawn().expect("the program runs");
    // A program that doesn't read on closes its input.
    let _ = child.stdin.take().expect("an input").write_all(input);
    told(child.wait_with_output().expect("an end"))
}

fn told(output: std::process::Output) -> Ran {
    Ran {
        status: output.status.code().expect("no signal"),
        out: String::from_utf8(output.stdout).expect("text"),
        errors: String::from_utf8(output.stderr).expect("text"),
    }
}

/// The files of a folder with this ending, rising by name, from the top of the repository.
pub fn files(folder: &str, ending: &str) -> Vec<String> {
    let entries = std::fs::read_dir(top().join(folder)).expect("a folder");
    let names = entries.map(|entry| entry.expect("an entry").file_name().into_string().expect("a name"));
    let mut all: Vec<String> =
        names.filter(|name| name.ends_with(ending)).map(|name| format!("{folder}/{name}")).collect();
    all.sort();
    assert!(!all.is_empty(), "{folder} has files");
    all
}

/// All texts of descriptions in the repository.
pub fn texts() -> Vec<String> {
    let mut all = files("oracle/examples", ".txt");
    all.extend(files("tool/tests/inputs", ".txt"));
    all
}

/// The descriptions of crates/replay; oracle/src/replaylist.rs has the list's form.
pub fn replayed() -> Vec<Vec<u8>> {
    let file = std::fs::read(top().join("crates/replay/stdin")).expect("the list");
    let number = |at: usize| u32::from_le_bytes(file[at..at + 4].try_into().expect("four bytes")) as usize;
    const HEAD: usize = 29;
    const REPORT_AT: usize = 25;
    let mut all = Vec::new();
    let mut at = 0;
    while at < file.len() {
        let (length, report) = (number(at), number(at + REPORT_AT));
        all.push(file[at + HEAD..at + HEAD + length].to_vec());
        at += HEAD + length + report;
    }
    all
}
