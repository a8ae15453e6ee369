//! Writes the stored list of descriptions, with what the oracle answers to each;
//! the program of crates/replay runs it.
//!
//! An entry, numbers low byte first: bytes of the description, words, bytes of
//! the report buffer, limit (u32 each); the answer: number (u8, 0 for accepted),
//! chunk and instruction (u16), steps (u32), bytes of the report (u32, 0 where
//! refused); then the description, then the report.
//!
//! First the examples, and one with a `Len` that is never reached. Then those of
//! `generate`, by number, as long as they are small: the first so many of each
//! outcome, and any accepted one that has an instruction seldom recorded so far,
//! or seldom with a guard, or with two.
//! Workspace, buffer and limit are the generator's. What types.rs does not judge
//! is left out.

use oracle::description::text_to_bytes;
use oracle::generate::coverage::Coverage;
use oracle::generate::{Generated, outcome, seed_of, with_measure};
use oracle::judged::judged;
use oracle::model::{Description, Instruction, put16, put32};
use oracle::ops;
use oracle::run::{self, NONE, Outcome};
use std::io::Write;
use std::path::Path;

#[global_allocator]
static POOL: oracle::pool::Pool = oracle::pool::Pool;

/// The generator's run, and how many of its descriptions are looked at.
const RUN: u64 = 29;
const LOOKED_AT: u64 = 60_000;
/// How many are stored: of those accepted, of each refusal.
const ACCEPTED: u64 = 1_300;
const REFUSED: u64 = 70;
/// An instruction is seldom recorded up to so many descriptions.
const SELDOM: u64 = 12;
/// With a guard, or with two, it is up to so many.
const SELDOM_GUARDED: u64 = 4;
/// The largest numbers of an entry; a report past `SHORT` is stored for a seldom instruction only.
const BYTES: usize = 1_500;
const WORDS: u64 = 16_384;
const REPORT: usize = 8_192;
const SHORT: usize = 1_500;

#[derive(Default)]
struct List {
    out: Vec<u8>,
    coverage: Coverage,
}

impl List {
    /// Stores a description, if types.rs judges it.
    fn offer(&mut self, one: &Generated, outcome: &Outcome) {
        if self.coverage.includes(&one.bytes, judged) {
            self.entry(one, outcome);
        }
    }

    fn entry(&mut self, one: &Generated, outcome: &Outcome) {
        let (number, chunk, instruction, report) = match outcome {
            Outcome::Accepted { report, .. } => (0, NONE, NONE, &report[..]),
            Outcome::Refused(r) => (r.number, r.chunk, r.instruction, &[][..]),
        };
        put32(&mut self.out, one.bytes.len() as u32);
        put32(&mut self.out, one.words as u32);
        put32(&mut self.out, one.report_len as u32);
        put32(&mut self.out, one.limit);
        self.out.push(number);
        put16(&mut self.out, chunk);
        put16(&mut self.out, instruction);
        put32(&mut self.out, outcome.steps());
        put32(&mut self.out, report.len() as u32);
        self.out.extend_from_slice(&one.bytes);
        self.out.extend_from_slice(report);
        self.coverage.add(&one.bytes, outcome);
    }

    /// Whether an accepted description has a record of a seldom instruction, or
    /// one with as many guards as that instruction seldom has.
    fn seldom(&self, one: &Generated, outcome: &Outcome) -> bool {
        let mut alone = Coverage::default();
        alone.add(&one.bytes, outcome);
        let few = |here: &[u64], all: &[u64], most: u64| here.iter().zip(all).any(|(here, all)| *here > 0 && *all < most);
        few(&alone.recorded, &self.coverage.recorded, SELDOM)
            || few(&alone.guarded, &self.coverage.guarded, SELDOM_GUARDED)
            || few(&alone.ordered, &self.coverage.ordered, SELDOM_GUARDED)
    }

    fn wanted(&self, one: &Generated, outcome: &Outcome) -> bool {
        if one.bytes.len() > BYTES || one.words > WORDS || one.report_len > REPORT {
            return false;
        }
        let stored = self.coverage.outcomes[usize::from(outcome.number())];
        match outcome {
            Outcome::Refused(_) => stored < REFUSED,
            Outcome::Accepted { report, .. } => (report.len() <= SHORT && stored < ACCEPTED) || self.seldom(one, outcome),
        }
    }
}

/// The examples, in the order of their names.
fn examples() -> Vec<Vec<u8>> {
    let mut paths: Vec<_> = std::fs::read_dir("examples").expect("examples").map(|entry| entry.expect("entry").path()).collect();
    paths.sort();
    paths.iter().map(|path| example(path)).collect()
}

/// The bytes of an example.
fn example(path: &Path) -> Vec<u8> {
    text_to_bytes(&std::fs::read_to_string(path).expect("a text")).expect("a description")
}

/// A description with an instruction more at the end of its first chunk.
fn with_len(bytes: &[u8]) -> Vec<u8> {
    let mut d = Description::decode(bytes).expect("good form");
    d.chunks[0].code.push(Instruction::new(ops::LEN, 1, 1, 0, 0, 0));
    d.encode()
}

fn main() {
    let mut list = List::default();
    let mut first = examples();
    first.push(with_len(&example(Path::new("examples/worked.txt"))));
    for bytes in first {
        let one = Generated { bytes, words: WORDS, report_len: REPORT, limit: 1_000_000 };
        let outcome = run::check(&one.bytes, one.words, one.report_len, one.limit);
        list.offer(&one, &outcome);
    }
    for number in 0..LOOKED_AT {
        let (one, measured) = with_measure(seed_of(RUN, number));
        let outcome = outcome(&one, &measured);
        if list.wanted(&one, &outcome) {
            list.offer(&one, &outcome);
        }
    }
    std::io::stdout().write_all(&list.out).expect("output");
    eprintln!("{}", list.coverage.table());
    eprintln!("{} bytes", list.out.len());
}
