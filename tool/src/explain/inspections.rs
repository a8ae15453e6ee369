//! Refusals 16 and 17: what an inspection found.

use super::UNSEEN;
use super::origins::Back;
use crate::show;
use genduvo::Mask;
use genduvo::report::Record;
use std::io::{self, Write};

/// The bytes of a discriminant.
const DISCRIMINANT: u32 = 8;

/// 16: the extent of the enum.
pub fn discriminant(out: &mut impl Write, back: &Back, at: usize, record: Record) -> io::Result<()> {
    let Some(cell) = record.stack().iter().last() else { return Ok(()) };
    let [.., of_enum] = cell.extents;
    let bytes = show::extent(of_enum).unwrap_or("no bytes at all known".to_string());
    let enough = of_enum.minimum().is_some_and(|minimum| minimum >= DISCRIMINANT);
    let comes = if cell.mask.meets(Mask::ENUM) && !enough { "refused" } else { UNSEEN };
    writeln!(out, "  found {}: as ENUM it has {bytes}: {comes}", show::cell(&cell))?;
    back.write(out, at, record.stack().len() - 1)?;
    writeln!(out, "  wanted: a minimum of {DISCRIMINANT} bytes, the discriminant's, or no ENUM at all")
}

/// 17: the kinds beside the struct.
pub fn receiver(out: &mut impl Write, back: &Back, at: usize, record: Record) -> io::Result<()> {
    let Some(cell) = record.stack().iter().last() else { return Ok(()) };
    let rest = cell.mask.without(Mask::STRUCT);
    let found = show::cell(&cell);
    if cell.mask.meets(Mask::STRUCT) && !rest.is_none() {
        writeln!(out, "  found {found}: it may be STRUCT, and {rest} as well: refused")?;
    } else {
        writeln!(out, "  found {found}: {UNSEEN}")?;
    }
    back.write(out, at, record.stack().len() - 1)?;
    writeln!(out, "  wanted by {}: STRUCT and nothing else, or no STRUCT at all", back.instruction(at).op)
}
