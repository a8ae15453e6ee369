//! The table of what the rules ask, against the library: on the descriptions of crates/replay the table's guards are
//! those of every record, and every refusal of the run is explained by an operand that the table refuses.

mod common;

use genduvo::Mask;
use genduvo::description::{Description, Op};
use genduvo::report::{Cell, Extent, Record, Report};
use genduvo_tool::args::MEMORY;
use genduvo_tool::asks::{Ask, Judged, Verdict, asks, judge, judged};
use genduvo_tool::explain;
use genduvo_tool::lend::{Bounds, Outcome, analyse};
use genduvo_tool::pack::together;
use std::collections::{BTreeMap, BTreeSet};

const BOUNDS: Bounds = Bounds { limit: 1_000_000, memory: MEMORY };

/// The guards that the table puts before an instruction, two on one place meeting in what they have in common.
fn guards(d: &Description, record: Record) -> BTreeMap<usize, Mask> {
    let i = &d.chunks[usize::from(record.chunk())].code[usize::from(record.instruction())];
    let stack: Vec<Mask> = record.stack().iter().map(|cell| cell.mask).collect();
    let start = stack.len() - usize::from(i.taken);
    let mut all = BTreeMap::new();
    for ask in asks(d, record.chunk(), i) {
        let verdicts: Vec<(usize, Verdict)> = match ask {
            Ask::Top { wanted } => vec![(start - 1, judge(stack[start - 1], wanted))],
            _ => judged(&ask, &stack[start..])
                .into_iter()
                .map(|Judged { operand, verdict, .. }| (start + operand, verdict))
                .collect(),
        };
        for (place, verdict) in verdicts {
            assert!(!verdict.refuses(), "an accepted instruction: {} {verdict:?}", i.op);
            if let Verdict::Guarded(mask) = verdict {
                all.entry(place).and_modify(|old: &mut Mask| *old = *old & mask).or_insert(mask);
            }
        }
    }
    all
}

#[test]
fn the_guards_of_every_record() {
    let (mut records, mut guarded, mut ops) = (0, 0, BTreeSet::new());
    for bytes in common::replayed() {
        let Ok(Outcome::Accepted(accepted)) = analyse(&bytes, &BOUNDS) else { continue };
        let d = Description::from_bytes(&bytes).expect("a description");
        for record in Report::read(&accepted.report).expect("a report").records() {
            let found: BTreeMap<usize, Mask> =
                record.guards().iter().map(|guard| (guard.place.into(), guard.mask)).collect();
            assert_eq!(found, guards(&d, record), "{record:?}");
            records += 1;
            guarded += usize::from(!found.is_empty());
            ops.insert(d.chunks[usize::from(record.chunk())].code[usize::from(record.instruction())].op);
        }
    }
    assert!(records > 10_000 && guarded > 200 && ops.len() > 60, "{records} records, {guarded} guarded, {}", ops.len());
}

/// A construction's extent, by the sizes that explain a refusal 15.
fn extent(d: &Description, record: Record) -> Option<Extent> {
    const FLAT: u32 = 0;
    const ARRAY: u32 = 1;
    let i = &d.chunks[usize::from(record.chunk())].code[usize::from(record.instruction())];
    if i.op != Op::NEW_COMPOSITE || i.a != FLAT {
        return None;
    }
    let start = record.stack().len() - usize::from(i.taken);
    let taken: Vec<Cell> = record.stack().iter().skip(start).collect();
    let (min, max) = together(d, &taken).expect("an accepted construction packs");
    assert!(max <= i.c.into(), "{max} bytes into {}", i.c);
    let (min, max) = if i.b > ARRAY { (i.c, i.c) } else { (min as u32, max as u32) };
    Some(Extent::Range { min, max })
}

#[test]
fn the_extent_of_every_construction() {
    let mut count = 0;
    for bytes in common::replayed() {
        let Ok(Outcome::Accepted(accepted)) = analyse(&bytes, &BOUNDS) else { continue };
        let d = Description::from_bytes(&bytes).expect("a description");
        for record in Report::read(&accepted.report).expect("a report").records() {
            let Some(expected) = extent(&d, record) else { continue };
            let made = record.outputs().get(0).expect("an output").cell;
            let kind = made.mask.bits().trailing_zeros() - Mask::TUPLE.bits().trailing_zeros();
            assert_eq!(made.extents[kind as usize], expected, "{record:?}");
            count += 1;
        }
    }
    assert!(count > 500, "{count} constructions");
}

#[test]
fn every_refusal_of_the_run_is_explained() {
    let mut numbers: BTreeMap<u8, usize> = BTreeMap::new();
    let (mut blind, mut unseen) = (0, 0);
    for bytes in common::replayed() {
        let Ok(Outcome::Refused(refusal, _)) = analyse(&bytes, &BOUNDS) else { continue };
        let number = refusal.reason.number();
        let mut out = Vec::new();
        explain::write(&mut out, &bytes, &BOUNDS).expect("an explanation");
        let text = String::from_utf8(out).expect("text");
        assert!(!text.contains("doesn't find the cause"), "{text}");
        blind += usize::from(text.contains("can't be shown"));
        unseen += usize::from(text.contains("this alone is fine") || text.contains("Nothing that is shown is refused"));
        *numbers.entry(number).or_default() += 1;
    }
    assert!((13..=18).all(|number| numbers.get(&number).is_some_and(|count| *count > 20)), "{numbers:?}");
    let of_run: usize = numbers.range(13..=18).map(|(_, count)| count).sum();
    assert!(blind * 100 < of_run, "{blind} of {of_run} refusals of the run are explained without what was found");
    assert!(unseen * 50 < of_run, "{unseen} of {of_run} refusals of the run have a cause that isn't shown");
}
