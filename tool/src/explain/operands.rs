//! Refusal 13: which operand, the kinds found and the kinds wanted.

use super::early;
use super::origins::Back;
use crate::asks::{Ask, Judged, Verdict, asks, common, judge, judged};
use crate::show;
use genduvo::Mask;
use genduvo::description::{Description, Instruction, Op};
use genduvo::report::{Cell, Record};
use std::io::{self, Write};

/// What an instruction has before it.
pub(super) struct Before<'a> {
    /// The chunk's control flow backwards.
    pub back: Back<'a>,
    /// The instruction's number.
    pub at: usize,
    /// The first stack place that it takes.
    pub start: usize,
    /// The whole stack.
    pub stack: Vec<Cell>,
}

impl Before<'_> {
    /// What it takes.
    pub fn taken(&self) -> &[Cell] {
        &self.stack[self.start..]
    }

    /// The kinds of what it takes.
    pub fn masks(&self) -> Vec<Mask> {
        self.taken().iter().map(|cell| cell.mask).collect()
    }
}

/// Writes each operand with what was found and what is wanted.
pub fn write(out: &mut impl Write, back: Back, at: usize, record: Record) -> io::Result<()> {
    let (facts, chunk, i) = (back.facts, back.chunk, back.instruction(at));
    let stack: Vec<Cell> = record.stack().iter().collect();
    let Some(start) = stack.len().checked_sub(i.taken.into()) else {
        return writeln!(out, "  it takes {}, and the stack has {}: too few", i.taken, stack.len());
    };
    if let Some(line) = structure(facts.description, i, start) {
        return writeln!(out, "  {line}");
    }
    let before = Before { back, at, start, stack };
    let asks = asks(facts.description, chunk, i);
    let mut refused = false;
    for ask in &asks {
        refused |= one(out, &before, ask)?;
    }
    if refused { Ok(()) } else { early::write(out, &before, &asks) }
}

/// What is wrong whatever the kinds are.
fn structure(d: &Description, i: &Instruction, left: usize) -> Option<String> {
    let slots = u64::from(d.header.slots);
    let (first, count) = match i.op {
        Op::GET_DATA | Op::SET_DATA => (i.a, 1),
        Op::GET_DATA_INDEXED | Op::SET_DATA_INDEXED => (i.a, i.b),
        Op::RETURN if left == 0 => return Some("it gives back the top of the stack, and nothing is there".to_string()),
        _ => return None,
    };
    let end = u64::from(first) + u64::from(count);
    let indexed = matches!(i.op, Op::GET_DATA_INDEXED | Op::SET_DATA_INDEXED);
    if end > slots {
        return Some(format!("it names {}, and there are {slots} slots", show::slots(first, count)));
    }
    (indexed && i.taken != 2).then(|| format!("an indexed access takes 2 operands, and this takes {}", i.taken))
}

/// Writes one ask; answers whether it refuses.
fn one(out: &mut impl Write, before: &Before, ask: &Ask) -> io::Result<bool> {
    match ask {
        Ask::Never(why) => writeln!(out, "  {why}").map(|()| true),
        Ask::Top { wanted } => top(out, before, *wanted),
        Ask::Common { wanted, over } if common(*wanted, *over, &before.masks()).is_none() => {
            apart(out, before, *wanted).map(|()| true)
        }
        _ => {
            let all = judged(ask, &before.masks());
            for one in &all {
                operand(out, before, one)?;
            }
            Ok(all.iter().any(|one| one.verdict.refuses()))
        }
    }
}

fn top(out: &mut impl Write, before: &Before, wanted: Mask) -> io::Result<bool> {
    let place = before.start - 1;
    let cell = before.stack[place];
    let verdict = judge(cell.mask, wanted);
    let found = show::cell(&cell);
    writeln!(out, "  what is given back (stack place {place}): found {found}, wanted {wanted}: {}", words(verdict))?;
    before.back.write(out, before.at, place)?;
    Ok(verdict.refuses())
}

/// Operands that have no wanted kind in common.
fn apart(out: &mut impl Write, before: &Before, wanted: Mask) -> io::Result<()> {
    writeln!(out, "  the operands have none of {wanted} in common: refused")?;
    for (number, cell) in before.taken().iter().enumerate() {
        let place = before.start + number;
        writeln!(out, "  operand {number} (stack place {place}): found {}", show::cell(cell))?;
        before.back.write(out, before.at, place)?;
    }
    Ok(())
}

fn operand(out: &mut impl Write, before: &Before, one: &Judged) -> io::Result<()> {
    let Judged { operand, wanted, what, verdict } = one;
    let place = before.start + operand;
    let found = show::cell(&before.taken()[*operand]);
    let what = if what.is_empty() { String::new() } else { format!(", {what}") };
    writeln!(
        out,
        "  operand {operand} (stack place {place}){what}: found {found}, wanted {wanted}: {}",
        words(*verdict)
    )?;
    before.back.write(out, before.at, place)
}

/// What comes of it, in words.
pub(super) fn words(verdict: Verdict) -> String {
    match verdict {
        Verdict::Fine => "fine".to_string(),
        Verdict::Guarded(mask) => format!("would be guarded, tested for {mask}"),
        Verdict::Nothing => "refused, no kind at all can arrive".to_string(),
        Verdict::None => "refused, none of the wanted kinds is possible".to_string(),
        Verdict::Untestable(mask) => {
            format!("refused, it may be {}, which can't be tested at run time, so no guard can be put", or(mask))
        }
    }
}

/// The names of a mask, as alternatives.
fn or(mask: Mask) -> String {
    mask.names().collect::<Vec<_>>().join(" or ")
}
