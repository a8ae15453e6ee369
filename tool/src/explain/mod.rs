//! Why a description is refused.

mod declared;
mod early;
mod form;
mod heights;
mod host;
mod inspections;
mod operands;
mod origins;
mod packing;
mod places;
mod probe;
pub mod reach;
mod slots;

use crate::lend::{Bounds, Outcome, analyse};
use crate::show::{self, counted};
use crate::stop::{Status, Stop, failed};
use genduvo::Refusal;
use genduvo::description::Description;
pub use host::advice;
use std::io::Write;

/// What is said where what is shown isn't the cause.
const UNSEEN: &str = "this alone is fine, so it was refused for what isn't followed here, or at an early visit";

/// Writes why a description is refused; an accepted one is said to be so.
pub fn write(out: &mut impl Write, bytes: &[u8], bounds: &Bounds) -> Result<Status, Stop> {
    let (refusal, lent) = match analyse(bytes, bounds)? {
        Outcome::Refused(refusal, lent) => (refusal, lent),
        Outcome::Accepted(accepted) => {
            writeln!(out, "accepted: {}; there is nothing to explain", counted(accepted.steps.into(), "step"))?;
            return Ok(Status::Good);
        }
    };
    writeln!(out, "refused {}", refusal.reason)?;
    if refusal.reason.number() <= 4 {
        form::write(out, bytes, &refusal)?;
        return Ok(Status::Refused);
    }
    let d = Description::from_bytes(bytes).or_else(|error| failed(format!("a description of good form: {error}")))?;
    place(out, &d, &refusal)?;
    writeln!(out)?;
    match refusal.reason.number() {
        5..=8 => host::write(out, &refusal, lent, bounds)?,
        9..=12 => declared::write(out, &d, &refusal)?,
        _ => places::write(out, &d, &refusal, bounds)?,
    }
    Ok(status(&refusal))
}

/// Memory that isn't allowed is the command line's doing.
pub fn status(refusal: &Refusal) -> Status {
    match refusal.reason.number() {
        5 | 6 | 8 => Status::Short,
        _ => Status::Refused,
    }
}

/// Where: the chunk and the instruction by name.
fn place(out: &mut impl Write, d: &Description, refusal: &Refusal) -> Result<(), Stop> {
    let steps = counted(refusal.steps.into(), "step");
    match (refusal.chunk, refusal.instruction) {
        (Some(chunk), Some(at)) => {
            let i = &d.chunks[usize::from(chunk)].code[usize::from(at)];
            let name = show::instruction(i);
            writeln!(
                out,
                "at chunk {chunk}, instruction {at}: {name} (takes {}, gives {}); {steps}",
                i.taken, i.given
            )?;
        }
        (Some(chunk), None) => writeln!(out, "at chunk {chunk}; {steps}")?,
        _ => writeln!(out, "at no instruction; {steps}")?,
    }
    Ok(())
}
