//! The report's bytes.

use crate::Width;
use crate::found::{Cell, Found};
use crate::model::{field, put16, put32};

/// Where the number of guards stands in the contents of a record; the guards
/// are its last bytes, four each.
pub const GUARDS_AT: usize = 10;

fn place(out: &mut Vec<u8>, at: Option<usize>) {
    put16(out, at.map_or(65535, |at| at as u16));
}

fn cell(out: &mut Vec<u8>, cell: &Cell) {
    put16(out, cell.mask);
    let (width, size) = match cell.width {
        Width::Unknown => (0, 0),
        Width::Scalar(size) => (1, size),
        Width::Body(size) => (2, size),
    };
    out.push(width);
    put32(out, size);
    for (form, min, max) in cell.extents {
        out.push(form);
        put32(out, min);
        put32(out, max);
    }
    out.push(u8::from(cell.owned));
    place(out, cell.origin);
    place(out, cell.predicate.map(|(receiver, _)| receiver));
    out.push(u8::from(cell.predicate.is_some_and(|(_, when)| when)));
}

pub(crate) fn bytes(found: &Found, private_kinds: &[u16]) -> Vec<u8> {
    let mut all = Vec::new();
    let out = &mut all;
    field(out, 16, |out| put32(out, found.reply_maximum));
    for (chunk, (inputs, result)) in found.inputs.iter().zip(&found.results).enumerate() {
        field(out, 17, |out| {
            put16(out, chunk as u16);
            for input in inputs {
                cell(out, input);
            }
            cell(out, result);
        });
    }
    assert_eq!(found.private.len(), private_kinds.len());
    for (private, mask) in found.private.iter().zip(private_kinds) {
        field(out, 18, |out| cell(out, &Cell { mask: *mask, ..*private }));
    }
    for record in &found.records {
        field(out, 19, |out| {
            put16(out, record.chunk as u16);
            put16(out, record.instruction as u16);
            put16(out, record.stack.len() as u16);
            put16(out, record.locals.len() as u16);
            put16(out, record.outputs.len() as u16);
            put16(out, record.guards.len() as u16);
            for value in record.stack.iter().chain(&record.locals) {
                cell(out, value);
            }
            for (slot, value) in &record.outputs {
                put16(out, *slot as u16);
                cell(out, value);
            }
            for (at, mask) in &record.guards {
                put16(out, *at as u16);
                put16(out, *mask);
            }
        });
    }
    for (chunk, instruction) in &found.inspections {
        field(out, 20, |out| {
            put16(out, *chunk as u16);
            put16(out, *instruction as u16);
        });
    }
    for (chunk, instruction, value) in &found.branches {
        field(out, 21, |out| {
            put16(out, *chunk as u16);
            put16(out, *instruction as u16);
            out.push(u8::from(*value));
        });
    }
    all
}
