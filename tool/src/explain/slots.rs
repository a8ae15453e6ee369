//! Data slots: where what is read comes from, and refusal 14.

use super::origins::Origin;
use crate::asks::is_placed;
use crate::facts::Facts;
use crate::list::shared_kind;
use crate::show;
use genduvo::Mask;
use genduvo::description::{Description, Instruction, Op};
use genduvo::report::{Cell, Record};
use std::io::{self, Write};
use std::ops::Range;

/// The slots that an access names.
pub fn named(i: &Instruction) -> Range<u32> {
    let count = if matches!(i.op, Op::GET_DATA_INDEXED | Op::SET_DATA_INDEXED) { i.b } else { 1 };
    i.a..i.a.saturating_add(count)
}

/// Where what a read finds comes from.
pub fn writers(facts: &Facts, read: &Instruction) -> Vec<Origin> {
    let slots = named(read);
    let last = slots.end.min(facts.description.header.slots.into());
    let mut all: Vec<Origin> = (slots.start..last).flat_map(|slot| declared(facts.description, slot)).collect();
    let written = |(chunk, at, cell): &(u16, usize, Cell)| {
        Origin::of(format!("written at chunk {chunk}, instruction {at}"), cell)
    };
    all.extend(writes(facts, &slots).iter().map(written));
    if all.is_empty() {
        all.push(Origin::said(format!("nothing writes {}", show::slots(slots.start, slots.len() as u32))));
    }
    all
}

/// What a slot is before anything is written.
fn declared(d: &Description, slot: u32) -> Option<Origin> {
    if let Some(kind) = d.shared.get(slot as usize) {
        let mask = shared_kind(*kind);
        return Some(Origin { text: format!("slot {slot} is shared: {mask}"), mask: Some(mask) });
    }
    let one = d.initializers.get(slot as usize - d.shared.len())?;
    let mask = Mask::constant(one.value.0, one.bool_value == 1);
    Some(Origin { text: format!("slot {slot} begins as {mask}"), mask: Some(mask) })
}

/// The recorded writes to some of these slots.
fn writes(facts: &Facts, slots: &Range<u32>) -> Vec<(u16, usize, Cell)> {
    let into = |i: &Instruction| {
        let named = named(i);
        matches!(i.op, Op::SET_DATA | Op::SET_DATA_INDEXED) && named.start < slots.end && slots.start < named.end
    };
    let write = |record: Record| {
        let (chunk, at) = (record.chunk(), usize::from(record.instruction()));
        let i = facts.instruction(chunk, at);
        let place = record.stack().len().checked_sub(i.taken.into()).filter(|_| into(i))?;
        Some((chunk, at, record.stack().get(place)?))
    };
    facts.report.records().filter_map(write).collect()
}

/// Writes which slots of an access are scalars and which bodies.
pub fn crossed(out: &mut impl Write, d: &Description, i: &Instruction) -> io::Result<()> {
    let end = i.a.saturating_add(i.b).min(d.header.slots.into());
    let placed: Vec<String> = (i.a..end).filter(|slot| is_placed(d, *slot)).map(|slot| slot.to_string()).collect();
    writeln!(out, "  it names {}: slot {} is a private scalar,", show::slots(i.a, i.b), i.a)?;
    writeln!(out, "  and of the others these hold private bodies: {}", placed.join(", "))?;
    writeln!(out, "  an indexed access that begins at a private scalar stays among scalars")
}
