//! Refusal 18: the heights that meet, or the one above D.

use super::UNSEEN;
use super::origins::Back;
use crate::flow::ways;
use crate::show;
use genduvo::description::{Instruction, Op};
use genduvo::report::Record;
use std::io::{self, Write};

/// The height behind an instruction.
fn left(i: &Instruction, height: usize) -> usize {
    let below = if i.op == Op::RESET { 0 } else { height.saturating_sub(i.taken.into()) };
    below + usize::from(i.given)
}

/// Writes the height before and behind the instruction, and those where it goes.
pub fn write(out: &mut impl Write, back: &Back, at: usize, record: Record) -> io::Result<()> {
    let (facts, i) = (back.facts, back.instruction(at));
    let chunk = facts.chunk(back.chunk);
    let before = record.stack().len();
    let behind = left(i, before);
    writeln!(out, "  the stack has {before} before it and {behind} behind it; D is {}", chunk.deepest)?;
    if behind > chunk.deepest.into() {
        return writeln!(out, "  {behind} is above D: refused");
    }
    let mut unequal = false;
    for way in ways(&chunk.code, at) {
        let Some(there) = facts.record(back.chunk, way.to).map(|record| record.stack().len()) else {
            continue;
        };
        if there != behind {
            writeln!(out, "  it goes to {}, where the stack has {there} on another way: refused", way.to)?;
            others(out, back, way.to)?;
            unequal = true;
        }
    }
    if unequal { Ok(()) } else { writeln!(out, "  where it goes the height is the same: {UNSEEN}") }
}

/// The other ways to an instruction, with their heights.
fn others(out: &mut impl Write, back: &Back, to: usize) -> io::Result<()> {
    if to == 0 {
        writeln!(out, "      0 from the begin of the chunk")?;
    }
    for source in &back.sources[to] {
        let i = back.instruction(source.at);
        writeln!(out, "      {} from {} {}", left(i, source.record.stack().len()), source.at, show::instruction(i))?;
    }
    Ok(())
}
