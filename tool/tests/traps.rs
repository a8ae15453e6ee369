//! What a `Trap` in an instruction's place leaves of what arrives there: all of it, or, where the program says that
//! what leaves the instruction can come back to it, at least a part. Tried on the instructions of accepted descriptions,
//! whose records say what arrives.

mod common;

use genduvo::description::{Description, Instruction, Op};
use genduvo::report::{Record, Report};
use genduvo_tool::args::MEMORY;
use genduvo_tool::explain::reach::takes_away;
use genduvo_tool::lend::{Bounds, Outcome, analyse};

const BOUNDS: Bounds = Bounds { limit: 1_000_000, memory: MEMORY };

fn reported(bytes: &[u8]) -> Option<Vec<u8>> {
    match analyse(bytes, &BOUNDS).expect("an answer") {
        Outcome::Accepted(accepted) => Some(accepted.report),
        Outcome::Refused(..) => None,
    }
}

/// The report with a `Trap` there, where it is accepted.
fn trapped(d: &Description, chunk: u16, at: u16) -> Option<Vec<u8>> {
    let mut changed = d.clone();
    let i = &mut changed.chunks[usize::from(chunk)].code[usize::from(at)];
    *i = Instruction { site: i.site, ..Instruction::new(Op::TRAP, 0, 0, [0; 3]) };
    reported(&changed.to_bytes())
}

/// Whether each cell of one record has no kind that the other hasn't.
fn within(less: Record, more: Record) -> bool {
    let stacks = less.stack().iter().zip(more.stack().iter());
    let locals = less.locals().iter().zip(more.locals().iter());
    less.stack().len() == more.stack().len() && stacks.chain(locals).all(|(less, more)| more.mask.contains(less.mask))
}

fn same(one: Record, other: Record) -> bool {
    one.stack().iter().eq(other.stack().iter()) && one.locals().iter().eq(other.locals().iter())
}

/// Tries one instruction; answers whether a trap may take something away, None where the rest is refused.
fn tried(d: &Description, record: Record) -> Option<bool> {
    let (chunk, at) = (record.chunk(), record.instruction());
    let report = trapped(d, chunk, at)?;
    let found = Report::read(&report).expect("a report").record(chunk, at).expect("it is still reached");
    let less = takes_away(d, &[(chunk, at.into())], (chunk, at.into()));
    assert!(within(found, record), "chunk {chunk}, instruction {at}: {found:?} within {record:?}");
    assert!(less || same(found, record), "chunk {chunk}, instruction {at}: {found:?} is {record:?}");
    Some(less)
}

#[test]
fn a_trap_loses_only_what_comes_back() {
    let (mut whole, mut less) = (0, 0);
    for bytes in common::replayed() {
        let Some(report) = reported(&bytes) else { continue };
        let d = Description::from_bytes(&bytes).expect("a description");
        let records = Report::read(&report).expect("a report").records();
        let answers: Vec<bool> = records.filter_map(|record| tried(&d, record)).collect();
        less += answers.iter().filter(|less| **less).count();
        whole += answers.iter().filter(|less| !**less).count();
    }
    assert!(whole > 5_000 && less > 5_000, "{whole} whole, {less} perhaps less");
}
