//! Reports, read part by part.

#![cfg(feature = "alloc")]

mod common;

use common::{WORKED, files, replayed, report, text};
use genduvo::description::text_to_bytes;
use genduvo::report::{
    Branch, CELL, Cell, Extent, Field, Inspection, Malformed, Predicate, Record, Report, Width, tag,
};
use genduvo::{Mask, lookup};

/// A field with these contents.
fn field(tag: u8, contents: &[u8]) -> Vec<u8> {
    let length = u16::try_from(contents.len()).expect("a short field");
    [&[tag][..], &length.to_le_bytes(), contents].concat()
}

fn cells(cells: impl Iterator<Item = Cell>) -> Vec<u8> {
    cells.flat_map(|cell| cell.write()).collect()
}

fn numbers<const N: usize>(numbers: [u16; N]) -> Vec<u8> {
    numbers.into_iter().flat_map(u16::to_le_bytes).collect()
}

fn record(record: Record) -> Vec<u8> {
    let (stack, locals, outputs, guards) = (record.stack(), record.locals(), record.outputs(), record.guards());
    let counts = [stack.len(), locals.len(), outputs.len(), guards.len()].map(|count| count as u16);
    let mut out = [numbers([record.chunk(), record.instruction()]), numbers(counts)].concat();
    out.extend(cells(stack.iter().chain(locals)));
    outputs.iter().for_each(|output| out.extend([&output.slot.to_le_bytes()[..], &output.cell.write()].concat()));
    guards.iter().for_each(|guard| out.extend(numbers([guard.place, guard.mask.bits()])));
    out
}

/// The bytes of a field by all that it answers.
fn rewritten(one: Field) -> Vec<u8> {
    match one {
        Field::Reply(most) => field(tag::REPLY, &most.to_le_bytes()),
        Field::Signature(signature) => {
            let inputs = cells(signature.inputs().into_iter());
            let contents = [&signature.chunk().to_le_bytes()[..], &inputs, &signature.result().write()].concat();
            field(tag::SIGNATURE, &contents)
        }
        Field::Slot(cell) => field(tag::SLOT, &cell.write()),
        Field::Record(one) => field(tag::RECORD, &record(one)),
        Field::Inspection(Inspection { chunk, instruction }) => field(tag::INSPECTION, &numbers([chunk, instruction])),
        Field::Branch(Branch { chunk, instruction, value }) => {
            field(tag::BRANCH, &[&numbers([chunk, instruction])[..], &[u8::from(value)]].concat())
        }
    }
}

/// Holds all that a report answers against its bytes.
fn see(report: Report) {
    let fields: Vec<Field> = report.fields().collect();
    assert_eq!(fields.iter().copied().flat_map(rewritten).collect::<Vec<u8>>(), report.bytes());
    let parts = [Field::Reply(report.reply())]
        .into_iter()
        .chain(report.signatures().map(Field::Signature))
        .chain(report.slots().map(Field::Slot))
        .chain(report.records().map(Field::Record))
        .chain(report.inspections().map(Field::Inspection))
        .chain(report.branches().map(Field::Branch));
    assert!(parts.eq(fields));
    for signature in report.signatures() {
        assert!(report.signature(signature.chunk()).is_some());
    }
    for record in report.records() {
        let found = report.record(record.chunk(), record.instruction()).expect("found");
        assert_eq!((found.chunk(), found.instruction()), (record.chunk(), record.instruction()));
        let (stack, outputs) = (record.stack(), record.outputs());
        assert!(stack.get(stack.len()).is_none() && outputs.get(outputs.len()).is_none());
        assert_eq!(stack.iter().len(), stack.len());
        assert_eq!(stack.is_empty(), stack.get(0).is_none());
    }
    assert!(!format!("{report:?}").is_empty());
}

fn scalar(mask: Mask, bytes: u32) -> Cell {
    let extents = [Extent::Absent; 4];
    Cell { mask, width: Width::Scalar(bytes), extents, owned: false, origin: None, predicate: None }
}

#[test]
fn the_worked_report_part_by_part() {
    let bytes = report(WORKED).expect("accepted");
    let report = Report::read(&bytes).expect("a report");
    assert_eq!((report.bytes(), report.reply()), (&bytes[..], 0));
    let signature = report.signature(0).expect("the entry's");
    assert_eq!((signature.chunk(), signature.inputs().len()), (0, 0));
    assert_eq!(signature.result(), Cell { width: Width::Unknown, ..scalar(Mask::BOOL, 0) });
    assert!(report.signature(1).is_none() && report.slot(0).is_none());
    let records: Vec<Record> = report.records().collect();
    let places: Vec<(u16, u16)> = records.iter().map(|record| (record.chunk(), record.instruction())).collect();
    assert_eq!(places, [(0, 0), (0, 1), (0, 2)]);
    let stacks: Vec<Vec<Cell>> = records.iter().map(|record| record.stack().iter().collect()).collect();
    let (no, yes) = (scalar(Mask::FALSE, 1), scalar(Mask::TRUE, 1));
    assert_eq!(stacks, [vec![], vec![no], vec![yes]]);
    let outputs = records.iter().map(|record| record.outputs().iter().map(|output| (output.slot, output.cell)));
    assert_eq!(outputs.map(Iterator::collect).collect::<Vec<Vec<_>>>(), [vec![(0, no)], vec![(0, yes)], vec![]]);
    assert!(records.iter().all(|record| record.locals().is_empty() && record.guards().is_empty()));
    assert_eq!((report.inspections().count(), report.branches().count()), (0, 0));
    assert_eq!(report.record(0, 2), Record::read(lookup(&bytes, 0, 2).expect("a record")));
    assert!(report.record(0, 3).is_none());
    see(report);
}

/// The reports of all examples and of all descriptions of crate `replay` that are accepted.
fn reports() -> Vec<Vec<u8>> {
    let texts = files("oracle/examples", "txt").into_iter().map(|path| text_to_bytes(&text(&path)).expect("a text"));
    let examples = texts.filter_map(|description| report(&description).ok());
    let replayed = replayed().into_iter().map(|one| one.report).filter(|report| !report.is_empty());
    examples.chain(replayed).collect()
}

#[test]
fn all_reports_come_back_from_what_they_answer() {
    let reports = reports();
    let mut seen = [0; 6];
    for bytes in &reports {
        let report = Report::read(bytes).expect("a report");
        see(report);
        report.fields().for_each(|field| seen[usize::from(rewritten(field)[0] - tag::REPLY)] += 1);
    }
    assert!(reports.len() > 1000, "{}", reports.len());
    assert!(seen.iter().all(|count| *count > 40), "{seen:?}");
}

/// Short reports that between them have fields of every tag and records with guards, locals and outputs.
fn short_reports() -> Vec<Vec<u8>> {
    let mut chosen: Vec<Vec<u8>> = Vec::new();
    let mut reports = reports();
    reports.sort_by_key(Vec::len);
    let fields =
        |bytes: &[u8], tag| Report::read(bytes).expect("a report").fields().any(|one| rewritten(one)[0] == tag);
    for tag in tag::REPLY..=tag::BRANCH {
        chosen.extend(reports.iter().find(|bytes| fields(bytes, tag)).cloned());
    }
    let guarded = |bytes: &[u8]| {
        Report::read(bytes).expect("a report").records().any(|one| !one.guards().is_empty() && !one.locals().is_empty())
    };
    chosen.extend(reports.iter().find(|bytes| guarded(bytes)).cloned());
    chosen
}

/// The same bytes with another byte at each place, and the place.
fn damaged(bytes: &[u8]) -> impl Iterator<Item = (usize, Vec<u8>)> {
    let with = |at: usize, value: u8| (at, [&bytes[..at], &[value], &bytes[at + 1..]].concat());
    let values = [0, 1, 2, 3, 16, 19, 21, 127, 255].into_iter();
    (0..bytes.len()).flat_map(move |at| {
        let near = [bytes[at] ^ 1, bytes[at].wrapping_add(1)];
        values.clone().chain(near).map(move |value| with(at, value))
    })
}

#[test]
fn damaged_reports() {
    let reports = short_reports();
    assert_eq!(reports.len(), 7);
    let (mut good, mut bad) = (0, 0);
    for (at, bytes) in reports.iter().flat_map(|bytes| damaged(bytes)) {
        match Report::read(&bytes) {
            Ok(report) => {
                see(report);
                good += 1;
            }
            Err(malformed) => {
                assert!(malformed.at <= at, "{malformed} {at}");
                bad += 1;
            }
        }
    }
    assert!(good > 1000 && bad > 1000, "{good} {bad}");
}

/// Holds a report that is cut off at this length against the places where its fields end.
fn see_cut(bytes: &[u8], cut: usize, ends: &[usize]) {
    let read = Report::read(&bytes[..cut]);
    assert_eq!(read.is_ok(), ends.contains(&cut));
    match read {
        Ok(report) => see(report),
        Err(malformed) => {
            let last = ends.iter().copied().filter(|end| *end < cut).max();
            assert_eq!(malformed.at, last.unwrap_or(0));
        }
    }
}

#[test]
fn reports_cut_off() {
    for bytes in short_reports() {
        let ends = ends_of_fields(&bytes);
        (0..bytes.len()).for_each(|cut| see_cut(&bytes, cut, &ends));
    }
    let nothing = Report::read(&[]).unwrap_err();
    assert_eq!(nothing.to_string(), "no report: at byte 0 there is no field that can follow");
}

fn ends_of_fields(report: &[u8]) -> Vec<usize> {
    let mut end = 0;
    let fields = Report::read(report).expect("a report").fields();
    fields.map(|field| (end += rewritten(field).len(), end).1).collect()
}

#[test]
fn fields_out_of_order() {
    let reply = field(tag::REPLY, &[0; 4]);
    let (inspection, branch) = (field(tag::INSPECTION, &[0; 4]), field(tag::BRANCH, &[0; 5]));
    let read = |parts: &[&[u8]]| Report::read(&parts.concat()).map(|report| report.fields().count());
    assert_eq!(read(&[&reply, &inspection, &branch, &branch]), Ok(4));
    assert_eq!(read(&[&reply, &branch, &inspection]), Err(Malformed { at: 15 }));
    assert_eq!(read(&[&inspection]), Err(Malformed { at: 0 }));
    assert_eq!(read(&[&reply, &reply]), Err(Malformed { at: 7 }));
    assert_eq!(read(&[&reply, &field(22, &[])]), Err(Malformed { at: 7 }));
    assert_eq!(read(&[&reply, &field(tag::INSPECTION, &[0; 5])]), Err(Malformed { at: 7 }));
    assert_eq!(read(&[&reply, &field(tag::BRANCH, &[0, 0, 0, 0, 2])]), Err(Malformed { at: 7 }));
    assert_eq!(read(&[&reply, &field(tag::SIGNATURE, &[0; 1])]), Err(Malformed { at: 7 }));
    assert_eq!(read(&[&reply, &field(tag::SIGNATURE, &[0; CELL + 3])]), Err(Malformed { at: 7 }));
}

#[test]
fn records_alone() {
    let empty = field(tag::RECORD, &numbers([3, 4, 0, 0, 0, 0]));
    let record = Record::read(&empty).expect("a record");
    assert_eq!((record.chunk(), record.instruction(), record.stack().len()), (3, 4, 0));
    assert!(Record::read(&[&empty[..], &[0]].concat()).is_none());
    assert!(Record::read(&empty[..14]).is_none());
    assert!(Record::read(&field(tag::RECORD, &numbers([3, 4, 1, 0, 0, 0]))).is_none());
    assert!(Record::read(&field(tag::SLOT, &numbers([3, 4, 0, 0, 0, 0]))).is_none());
    assert!(Record::read(&[]).is_none());
}

#[test]
fn cells_are_written_as_they_are_read() {
    let predicate = Some(Predicate { receiver: 2, when: true });
    let extents =
        [Extent::Unknown, Extent::Absent, Extent::Range { min: 8, max: 16 }, Extent::Range { min: 4, max: 4 }];
    let width = Width::Body(70_000);
    let cell = Cell { mask: Mask(0xabcd), width, extents, owned: true, origin: Some(7), predicate };
    let bytes = cell.write();
    assert_eq!(Cell::read(&bytes), Some(cell));
    assert_eq!((&bytes[..3], &bytes[43..]), (&[0xcd, 0xab, 2][..], &[1, 7, 0, 2, 0, 1][..]));
    for (at, changed) in damaged(&bytes) {
        let changed: [u8; CELL] = changed.try_into().expect("as long");
        assert!(Cell::read(&changed).is_none_or(|cell| cell.write() == changed), "{at}");
    }
    let nothing = Cell { width: Width::Unknown, ..scalar(Mask::NONE, 0) };
    assert_eq!(nothing.write()[44..], [255, 255, 255, 255, 0]);
    // Absent parts are 0; only the mask and the places may be any number.
    for at in (2..44).chain([48]) {
        let mut odd = nothing.write();
        odd[at] = 9;
        assert_eq!(Cell::read(&odd), None, "{at}");
    }
    let mut no_receiver = nothing.write();
    no_receiver[48] = 1;
    assert_eq!(Cell::read(&no_receiver), None);
}

#[test]
fn extents_and_widths_in_words() {
    let range = |min, max| Extent::Range { min, max };
    assert_eq!([range(4, 8), range(4, 4), Extent::Absent].map(Extent::exact), [None, Some(4), None]);
    assert_eq!([range(4, 8), Extent::Unknown, Extent::Absent].map(Extent::minimum), [Some(4), None, None]);
    assert_eq!([range(4, 8), Extent::Unknown, Extent::Absent].map(Extent::maximum), [Some(8), None, None]);
    let words = [Width::Unknown, Width::Scalar(8), Width::Body(16)].map(|width| width.to_string());
    assert_eq!(words, ["unknown", "scalar of 8", "body of 16"]);
    assert_eq!(
        [Extent::Absent, range(4, 8), Extent::Unknown].map(|one| one.to_string()),
        ["absent", "4..8", "unknown"]
    );
}
