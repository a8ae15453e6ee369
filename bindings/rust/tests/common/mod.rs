//! The examples of the repository, for all tests.

#![allow(dead_code)]

use std::path::{Path, PathBuf};

pub const WORKED: &[u8] = include_bytes!("../../../../examples/worked.bin");
pub const LIMIT: u32 = 1_000_000;

/// A path in the repository.
pub fn in_repository(path: &str) -> PathBuf {
    Path::new(env!("CARGO_MANIFEST_DIR")).join("../..").join(path)
}

/// The files of a folder that end so, by name.
pub fn files(folder: &str, ending: &str) -> Vec<PathBuf> {
    let entries = std::fs::read_dir(in_repository(folder)).expect(folder);
    let mut paths: Vec<PathBuf> = entries.map(|entry| entry.expect(folder).path()).collect();
    paths.retain(|path| path.extension().is_some_and(|extension| extension == ending));
    paths.sort();
    paths
}

/// An example's text.
pub fn text(path: &Path) -> String {
    std::fs::read_to_string(path).unwrap_or_else(|error| panic!("{}: {error}", path.display()))
}

/// The report of a description, in memory that is enough.
pub fn report(description: &[u8]) -> Result<Vec<u8>, genduvo::Refusal> {
    let sizes = genduvo::sizes(description)?;
    let (mut workspace, mut report) = (vec![0; sizes.words + 1000], vec![0; sizes.report]);
    let accepted = genduvo::check(description, &mut workspace, &mut report, LIMIT)?;
    report.truncate(accepted.length);
    Ok(report)
}

/// An entry of the list of crate `replay`: what a call is given, and what the oracle answered.
pub struct Replayed {
    pub description: Vec<u8>,
    pub words: usize,
    pub buffer: usize,
    pub limit: u32,
    pub number: u8,
    pub report: Vec<u8>,
}

/// Takes so many bytes off the front.
fn take<'a>(rest: &mut &'a [u8], length: usize) -> &'a [u8] {
    let (taken, after) = rest.split_at(length);
    *rest = after;
    taken
}

fn number(rest: &mut &[u8]) -> u32 {
    u32::from_le_bytes(take(rest, 4).try_into().expect("four bytes"))
}

fn entry(rest: &mut &[u8]) -> Replayed {
    let length = number(rest) as usize;
    let (words, buffer, limit) = (number(rest) as usize, number(rest) as usize, number(rest));
    let refusal = take(rest, 1)[0];
    // The place of a refusal and the steps.
    take(rest, 8);
    let report_length = number(rest) as usize;
    let (description, report) = (take(rest, length).to_vec(), take(rest, report_length).to_vec());
    Replayed { description, words, buffer, limit, number: refusal, report }
}

/// The list of crate `replay`; head of oracle/src/replaylist.rs.
pub fn replayed() -> Vec<Replayed> {
    let list = std::fs::read(in_repository("crates/replay/stdin")).expect("the list");
    let mut rest = &list[..];
    let mut entries = Vec::new();
    while !rest.is_empty() {
        entries.push(entry(&mut rest));
    }
    entries
}
