//! What was found at a refused instruction, shown by the library itself.
//!
//! The same description with a stand-in for that instruction, mostly a `Trap`, is analysed again; where another one is
//! refused then, it gets a stand-in, too. The report of what is accepted at last has the record of the instruction: what
//! arrives there.

use crate::lend::{Bounds, Outcome, analyse};
use crate::stop::Stop;
use genduvo::description::{Description, Instruction, Op};
use genduvo::{Reason, Refusal};

/// So many refused instructions get a stand-in, and no more.
const MOST: usize = 64;

/// A place and why it was refused.
#[derive(Debug, Clone, Copy, PartialEq, Eq)]
pub struct Refused {
    /// The chunk.
    pub chunk: u16,
    /// The instruction.
    pub at: usize,
    /// Why.
    pub reason: Reason,
    /// What stands in for it.
    pub stand_in: StandIn,
}

/// What stands in for a refused instruction.
#[derive(Debug, Clone, Copy, PartialEq, Eq)]
pub enum StandIn {
    /// A `Trap`: no way leaves it, so nothing is added to what arrives elsewhere.
    Stop,
    /// A `PopN` that takes and gives as many: control goes on, and what it gives may be anything.
    Pass,
    /// The same, but a test goes to its target: an `Else` that takes the condition.
    Jump,
    /// The construction in its boxed form: a body of the same kind whose bytes aren't known. That is what the rounds
    /// make of one that can't be packed, so nothing is lost and nothing is added.
    Boxed,
}

/// What came of it.
pub struct Probe {
    /// The report of the description with its stand-ins; None where it was never accepted.
    pub report: Option<Vec<u8>>,
    /// The refused instructions, the first one first.
    pub refused: Vec<Refused>,
    /// The refusal that ended it, where that is none of the run's.
    pub ended: Option<Reason>,
}

/// Puts stand-ins for refused instructions until the rest is accepted.
pub fn probe(d: &Description, refusal: &Refusal, others: StandIn, bounds: &Bounds) -> Result<Probe, Stop> {
    let mut changed = d.clone();
    let mut probe = Probe { report: None, refused: Vec::new(), ended: None };
    let mut last = *refusal;
    for _ in 0..MOST {
        let Some(one) = place(&last) else {
            probe.ended = Some(last.reason);
            break;
        };
        note(&mut probe.refused, d, one, others);
        probe.refused.iter().for_each(|one| stand_in(&mut changed, d, one));
        last = match analyse(&changed.to_bytes(), bounds)? {
            Outcome::Accepted(accepted) => return Ok(Probe { report: Some(accepted.report), ..probe }),
            Outcome::Refused(refusal, _) => refusal,
        };
    }
    Ok(probe)
}

/// The first one is a `Trap`, unless it is a construction. What is refused again is a `Trap` in the end, and so is a
/// `Return`, from which no way leads on.
fn note(refused: &mut Vec<Refused>, d: &Description, one: Refused, others: StandIn) {
    let op = d.chunks[usize::from(one.chunk)].code[one.at].op;
    let stand_in = match op {
        _ if one.reason == Reason::NoPackedExtent => StandIn::Boxed,
        Op::RETURN => StandIn::Stop,
        _ if refused.is_empty() => StandIn::Stop,
        _ => others,
    };
    match refused.iter_mut().find(|old| (old.chunk, old.at) == (one.chunk, one.at)) {
        Some(old) => old.stand_in = StandIn::Stop,
        None => refused.push(Refused { stand_in, ..one }),
    }
}

/// The instruction of a refusal that is one of the run.
fn place(refusal: &Refusal) -> Option<Refused> {
    let Refusal { reason, chunk, instruction, .. } = *refusal;
    let of_run = (13..=18).contains(&reason.number());
    Some(Refused { chunk: chunk?, at: instruction?.into(), reason, stand_in: StandIn::Stop }).filter(|_| of_run)
}

/// Its site stays: a reply is joined wherever it comes.
fn stand_in(changed: &mut Description, d: &Description, place: &Refused) {
    let i = &d.chunks[usize::from(place.chunk)].code[place.at];
    const BOXED: u32 = 1;
    let test = matches!(i.op, Op::IF | Op::BREAK_IF);
    let instead = match place.stand_in {
        StandIn::Stop => Instruction::new(Op::TRAP, 0, 0, [0; 3]),
        StandIn::Boxed => Instruction::new(Op::NEW_COMPOSITE, i.taken, i.given, [BOXED, i.b, 0]),
        StandIn::Jump if test => Instruction::new(Op::ELSE, i.taken, i.given, [i.a, 0, 0]),
        _ => Instruction::new(Op::POP_N, i.taken, i.given, [0; 3]),
    };
    let instead = Instruction { site: i.site, ..instead };
    changed.chunks[usize::from(place.chunk)].code[place.at] = instead;
}
