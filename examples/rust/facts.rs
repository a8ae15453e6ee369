//! `facts FILE`: the facts of a description, the record of one instruction, also through an index, and two refusals.
//! All memory is the program's own. Ends with 0 where the description is accepted, 1 where it is refused, 2 where the
//! file can't be read.

use genduvo::report::{Cell, Field, Record, Report, Signature, Width};
use genduvo::{Index, Refusal};
use std::error::Error;
use std::process::ExitCode;

const LIMIT: u32 = 1_000_000;
/// Room for some more entries in the queue than the least.
const MORE_WORDS: usize = 1000;

/// A cell in words: its kinds and, where it is known, how many bytes it has.
fn cell(cell: Cell) -> String {
    match cell.width {
        Width::Unknown => cell.mask.to_string(),
        Width::Scalar(size) | Width::Body(size) => format!("{}:{size}", cell.mask),
    }
}

fn cells(cells: impl IntoIterator<Item = Cell>) -> String {
    let words: Vec<String> = cells.into_iter().map(cell).collect();
    if words.is_empty() { "-".into() } else { words.join(" ") }
}

fn print_signature(signature: Signature) {
    let (inputs, result) = (cells(signature.inputs()), cell(signature.result()));
    println!("chunk {} inputs {inputs} result {result}", signature.chunk());
}

fn print_record(record: Record) {
    let (stack, locals) = (cells(record.stack()), cells(record.locals()));
    let gives = cells(record.outputs().iter().map(|output| output.cell));
    let tests =
        record.guards().iter().map(|guard| format!(", test that stack place {} is {}", guard.place, guard.mask));
    let tests: String = tests.collect();
    println!("{} {} stack {stack} locals {locals} gives {gives}{tests}", record.chunk(), record.instruction());
}

fn print_field(field: Field) {
    match field {
        Field::Reply(most) => println!("reply maximum {most}"),
        Field::Signature(signature) => print_signature(signature),
        Field::Slot(slot) => println!("slot {}", cell(slot)),
        Field::Record(record) => print_record(record),
        Field::Inspection(one) => println!("{} {} never finds what it looks for", one.chunk, one.instruction),
        Field::Branch(one) => println!("{} {} is always {}", one.chunk, one.instruction, one.value),
    }
}

/// Which bytes of the report a record has.
fn bytes_of(report: &[u8], record: Option<&[u8]>) -> String {
    match record {
        Some(part) => format!("{} bytes from byte {}", part.len(), part.as_ptr() as usize - report.as_ptr() as usize),
        None => "none".into(),
    }
}

fn print_sought(through: &str, index: Index, report: &[u8], instruction: u16) {
    let sought = match index.lookup(report, 0, instruction) {
        Ok(record) => bytes_of(report, record),
        Err(reason) => format!("refused {reason}"),
    };
    println!("through {through}, record of 0 {instruction}: {sought}");
}

/// Analyses the description once more, with an index, and looks records up through it. An index has fewer bytes than
/// its report.
fn print_indexed(description: &[u8], workspace: &mut [u32], report: &mut [u8]) -> Result<(), Refusal> {
    let mut bytes = vec![0; report.len()];
    let accepted = genduvo::check_indexed(description, workspace, report, &mut bytes, LIMIT)?;
    let (report, bytes) = (&report[..accepted.length], &mut bytes[..accepted.index_length]);
    println!("index of {} bytes", bytes.len());
    for entry in Index::new(bytes).entries() {
        println!("entry {} {}: {} bytes from byte {}", entry.chunk, entry.instruction, entry.length, entry.first);
    }
    print_sought("the index", Index::new(bytes), report, 2);
    print_sought("the index", Index::new(bytes), report, 9);
    // An index that isn't the report's own is refused for every record: its first entry names another byte.
    bytes[4] ^= 1;
    print_sought("a damaged index", Index::new(bytes), report, 2);
    Ok(())
}

/// All of it; a refusal is an error.
fn print_facts(description: &[u8]) -> Result<(), Box<dyn Error>> {
    let sizes = genduvo::sizes(description)?;
    let (words, most) = (sizes.words, sizes.report);
    println!("{} bytes, least workspace {words} words, at most {most} bytes of report", description.len());
    // No report of this description is longer.
    let (mut workspace, mut bytes) = (vec![0; words + MORE_WORDS], vec![0; most]);
    let accepted = genduvo::check(description, &mut workspace, &mut bytes, LIMIT)?;
    println!("accepted, {} steps, report of {} bytes", accepted.steps, accepted.length);
    let report = Report::read(&bytes[..accepted.length])?;
    report.fields().for_each(print_field);
    for instruction in [2, 9] {
        let record = genduvo::lookup(report.bytes(), 0, instruction);
        println!("record of 0 {instruction}: {}", bytes_of(report.bytes(), record));
    }
    print_indexed(description, &mut workspace, &mut bytes)?;
    // One step too few is refused.
    if let Err(refusal) = genduvo::check(description, &mut workspace, &mut bytes, accepted.steps - 1) {
        println!("{refusal}");
    }
    Ok(())
}

fn main() -> ExitCode {
    let Some(path) = std::env::args().nth(1) else {
        eprintln!("facts FILE");
        return ExitCode::from(2);
    };
    let description = match std::fs::read(&path) {
        Ok(description) => description,
        Err(error) => {
            eprintln!("{path}: {error}");
            return ExitCode::from(2);
        }
    };
    match print_facts(&description) {
        Ok(()) => ExitCode::SUCCESS,
        Err(refusal) => {
            println!("{refusal}");
            ExitCode::from(1)
        }
    }
}
