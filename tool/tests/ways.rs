//! Where control comes from, and what it brings: on accepted descriptions all that comes to a stack place, taken
//! together, is what the record has there.

mod common;

use genduvo::Mask;
use genduvo::description::Description;
use genduvo::report::Record;
use genduvo_tool::args::MEMORY;
use genduvo_tool::facts::Facts;
use genduvo_tool::flow::{Source, brought, sources};
use genduvo_tool::lend::{Bounds, Outcome, analyse};

const BOUNDS: Bounds = Bounds { limit: 1_000_000, memory: MEMORY };

/// The kinds that the ways bring to each place of a record's stack.
fn arriving(facts: &Facts, record: Record, ways: &[Source]) -> Vec<Mask> {
    let brings = |place: usize| {
        let masks = ways.iter().map(|source| {
            let i = facts.instruction(record.chunk(), source.at);
            brought(source, i, place).expect("every way brings a value to every place").0.mask
        });
        masks.fold(Mask::NONE, Mask::union)
    };
    (0..record.stack().len()).map(brings).collect()
}

#[test]
fn what_the_ways_bring_is_what_the_record_has() {
    let mut places = 0;
    for bytes in common::replayed() {
        let Outcome::Accepted(accepted) = analyse(&bytes, &BOUNDS).expect("an answer") else { continue };
        let d = Description::from_bytes(&bytes).expect("a description");
        let facts = Facts::new(&d, &accepted.report).expect("a report");
        let ways: Vec<Vec<Vec<Source>>> = (0..d.chunks.len() as u16).map(|chunk| sources(&facts, chunk)).collect();
        for record in facts.report.records() {
            let (chunk, at) = (usize::from(record.chunk()), usize::from(record.instruction()));
            let there: Vec<Mask> = record.stack().iter().map(|cell| cell.mask).collect();
            assert_eq!(arriving(&facts, record, &ways[chunk][at]), there, "{record:?}");
            assert!(at == 0 || !ways[chunk][at].is_empty(), "a recorded instruction is come to: {record:?}");
            places += there.len();
        }
    }
    assert!(places > 10_000, "{places} places");
}
