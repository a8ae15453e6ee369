//! Refusal 15: the bytes of each operand, their sum, the bytes reserved.

use super::UNSEEN;
use super::origins::Back;
use crate::pack::{packed, together};
use crate::show::{self, counted};
use genduvo::report::{Cell, Extent, Record};
use std::io::{self, Write};

/// Writes what each operand takes, and what is reserved.
pub fn write(out: &mut impl Write, back: &Back, at: usize, record: Record) -> io::Result<()> {
    let (d, i) = (back.facts.description, back.instruction(at));
    let start = record.stack().len().saturating_sub(i.taken.into());
    let taken: Vec<Cell> = record.stack().iter().skip(start).collect();
    for (number, cell) in taken.iter().enumerate() {
        let bytes = |(min, max)| show::extent(Extent::Range { min, max }).unwrap_or_default();
        let said = packed(d, cell).map_or_else(|why| why, bytes);
        writeln!(out, "  operand {number} (stack place {}): {}: {said}", start + number, show::cell(cell))?;
        back.write(out, at, start + number)?;
    }
    let Some((min, max)) = together(d, &taken) else {
        return writeln!(out, "  so the body's bytes aren't known: refused");
    };
    let sum = if min == max { counted(max, "byte") } else { format!("{min}..{max} bytes") };
    let comes = if max > i.c.into() { "refused" } else { UNSEEN };
    writeln!(out, "  together {sum}, and {} are reserved: {comes}", i.c)
}
