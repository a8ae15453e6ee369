//! Refusals 13 to 18: what was found at the instruction.

use super::origins::Back;
use super::probe::{Probe, Refused, StandIn, probe};
use super::reach::{reaches, takes_away};
use super::{heights, inspections, operands, packing, slots};
use crate::asks::{Ask, asks};
use crate::facts::Facts;
use crate::lend::Bounds;
use crate::list;
use crate::show::counted;
use crate::stop::Stop;
use genduvo::description::{Description, Op};
use genduvo::report::Record;
use genduvo::{Reason, Refusal};
use std::io::{self, Write};

/// So many further refusals are named, and no more.
const FURTHER: usize = 8;

/// Writes what was found, and the code around the place.
pub fn write(out: &mut impl Write, d: &Description, refusal: &Refusal, bounds: &Bounds) -> Result<(), Stop> {
    let mut why = None;
    for others in [StandIn::Stop, StandIn::Pass, StandIn::Jump] {
        let Probe { report, refused, ended } = probe(d, refusal, others, bounds)?;
        why = why.or(ended);
        let (Some(report), Some(first)) = (report, refused.first().copied()) else { continue };
        let mut facts = Facts::new(d, &report)?;
        facts.refused = refused.iter().map(|one| ((one.chunk, one.at), one.reason.number())).collect();
        facts.stopped = stopped(&refused).collect();
        // A Trap before it may cut every way to it.
        if let Some(record) = facts.record(first.chunk, first.at) {
            found(out, &facts, first, record)?;
            limits(out, d, &refused)?;
            further(out, d, &refused)?;
            writeln!(out, "\n  the code around it, with what arrives there:")?;
            list::around(out, &facts, first.chunk, first.at)?;
            return Ok(());
        }
    }
    Ok(blind(out, d, refusal, why)?)
}

/// The places that a `Trap` stands for.
fn stopped(refused: &[Refused]) -> impl Iterator<Item = (u16, usize)> {
    refused.iter().filter(|one| one.stand_in == StandIn::Stop).map(|one| (one.chunk, one.at))
}

/// What is wanted, where what is found can't be shown.
fn blind(out: &mut impl Write, d: &Description, refusal: &Refusal, why: Option<Reason>) -> io::Result<()> {
    let (Some(chunk), Some(at)) = (refusal.chunk, refusal.instruction) else { return Ok(()) };
    let i = &d.chunks[usize::from(chunk)].code[usize::from(at)];
    for ask in asks(d, chunk, i) {
        match ask {
            Ask::Kinds { operand, wanted, .. } => writeln!(out, "  operand {operand}: wanted {wanted}")?,
            Ask::Common { wanted, .. } => writeln!(out, "  the operands want a kind in common of {wanted}")?,
            Ask::Top { wanted } => writeln!(out, "  what is given back: wanted {wanted}")?,
            Ask::Never(why) => writeln!(out, "  {why}")?,
        }
    }
    if i.op == Op::NEW_COMPOSITE {
        writeln!(out, "  {} are reserved for the {} that it takes", counted(i.c.into(), "byte"), i.taken)?;
    }
    let why = why.map_or("with other refused instructions left out no way leads there".to_string(), |reason| {
        format!("with this instruction left out the description is refused {reason}")
    });
    writeln!(out, "  what was found can't be shown: {why}")
}

fn found(out: &mut impl Write, facts: &Facts, place: Refused, record: Record) -> io::Result<()> {
    let Refused { chunk, at, reason, .. } = place;
    let back = Back::new(facts, chunk);
    match reason {
        Reason::KindsNotProven => operands::write(out, back, at, record),
        Reason::PlacementsCrossed => slots::crossed(out, facts.description, back.instruction(at)),
        Reason::NoPackedExtent => packing::write(out, &back, at, record),
        Reason::NoDiscriminant => inspections::discriminant(out, &back, at, record),
        Reason::MixedReceiver => inspections::receiver(out, &back, at, record),
        _ => heights::write(out, &back, at, record),
    }
}

/// What the stand-ins may have cut off or added.
fn limits(out: &mut impl Write, d: &Description, refused: &[Refused]) -> io::Result<()> {
    let stopped: Vec<(u16, usize)> = stopped(refused).collect();
    if takes_away(d, &stopped, (refused[0].chunk, refused[0].at)) {
        writeln!(
            out,
            "\n  What leaves this instruction, or another refused one, can come back to it: by a loop, a call or"
        )?;
        writeln!(out, "  a slot. That isn't followed here, so the kinds shown are at least those that arrive.")?;
    }
    if refused.iter().any(|one| matches!(one.stand_in, StandIn::Pass | StandIn::Jump)) {
        writeln!(
            out,
            "\n  Other instructions are refused, too, on the way to it. What they give is taken for UNKNOWN here."
        )?;
    }
    Ok(())
}

/// What is refused whatever becomes of this one: no stand-in before can have brought it about.
fn further(out: &mut impl Write, d: &Description, refused: &[Refused]) -> io::Result<()> {
    let place = |one: &Refused| (one.chunk, one.at);
    let own = |number: &usize| {
        // A boxed construction is what it was in the rounds, so it brings about nothing.
        let changing = refused[..*number].iter().filter(|one| one.stand_in != StandIn::Boxed);
        let before: Vec<(u16, usize)> = changing.map(place).collect();
        !reaches(d, &before, place(&refused[*number]))
    };
    let (apart, behind): (Vec<usize>, Vec<usize>) = (1..refused.len()).partition(own);
    if !apart.is_empty() {
        writeln!(out, "\n  refused as well:")?;
    }
    for number in apart.iter().take(FURTHER) {
        let Refused { chunk, at, reason, .. } = refused[*number];
        writeln!(out, "      chunk {chunk}, instruction {at}: {} {}", reason.number(), reason.meaning())?;
    }
    if apart.len() > FURTHER {
        writeln!(out, "      and {} more", apart.len() - FURTHER)?;
    }
    if behind.is_empty() {
        return Ok(());
    }
    writeln!(out, "\n  refused behind it, perhaps only for what isn't followed here: {}", behind.len())
}
