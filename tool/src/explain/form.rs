//! Refusals 1 to 4: which byte, which part, which rule.

use crate::form::{Fault, Field, first_fault, value};
use genduvo::Refusal;
use std::io::{self, Write};

/// Says the first fault that the walk finds, where the library names the same number and place.
pub fn write(out: &mut impl Write, bytes: &[u8], refusal: &Refusal) -> io::Result<()> {
    match first_fault(bytes).filter(|fault| agrees(fault, refusal)) {
        Some(fault) => {
            place(out, &fault)?;
            writeln!(out)?;
            what(out, bytes, &fault)?;
            writeln!(out, "  the rule: {}", fault.rule)
        }
        None => writeln!(out, "{refusal}: this program's own walk doesn't find the cause"),
    }
}

/// Whether the walk here and the library say the same.
pub fn agrees(fault: &Fault, refusal: &Refusal) -> bool {
    let Refusal { reason, chunk, instruction, .. } = refusal;
    (fault.number, fault.chunk, fault.instruction) == (reason.number(), *chunk, *instruction)
}

fn place(out: &mut impl Write, fault: &Fault) -> io::Result<()> {
    let at = fault.at;
    match fault.field {
        Some((field, first)) => {
            writeln!(out, "at byte {at} ({at:#x}), in {}, which begins at byte {first}", named(field))
        }
        None => writeln!(out, "at byte {at} ({at:#x})"),
    }
}

/// A field by its tag, what it is and where it belongs.
fn named(field: Field) -> String {
    const KINDS: [&str; 8] =
        ["header", "chunk", "instruction", "site", "native", "shared slot", "placement", "initializer"];
    let kind = KINDS.get(usize::from(field.tag).wrapping_sub(1)).copied().unwrap_or("none");
    let of = match (field.chunk, field.instruction) {
        (Some(chunk), Some(instruction)) => format!(" {instruction} of chunk {chunk}"),
        (Some(chunk), None) => format!(" {chunk}"),
        _ => String::new(),
    };
    format!("field {} ({kind}{of})", field.tag)
}

fn what(out: &mut impl Write, bytes: &[u8], fault: &Fault) -> io::Result<()> {
    match value(bytes, fault) {
        Some(value) => writeln!(out, "  {}: {value}", fault.part),
        None => writeln!(out, "  {}", fault.part),
    }
}
