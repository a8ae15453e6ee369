//! Where nothing refuses once all kinds have arrived: an early visit did, with less than all.

use super::operands::{Before, words};
use crate::asks::{Ask, Verdict, judge, judged};
use crate::flow::{Source, brought};
use genduvo::Mask;
use std::collections::BTreeSet;
use std::io::{self, Write};

/// Writes what is refused of that which one way brings, or one origin.
pub fn write(out: &mut impl Write, before: &Before, asks: &[Ask]) -> io::Result<()> {
    writeln!(out, "  With all kinds that are shown each operand is fine or would be guarded. But a rule is tested at")?;
    writeln!(out, "  every visit, also at an early one, before all kinds have arrived.")?;
    let ways = &before.back.sources[before.at];
    let mut lines: BTreeSet<String> = ways.iter().flat_map(|source| by_way(before, source, asks)).collect();
    if lines.is_empty() {
        lines = (0..before.stack.len()).flat_map(|place| by_origin(before, place, asks)).collect();
    }
    if lines.is_empty() {
        return writeln!(
            out,
            "  Nothing that is shown is refused alone: some of it together is, or what isn't followed here."
        );
    }
    lines.iter().try_for_each(|line| writeln!(out, "  {line}"))
}

/// What refuses a stack of these kinds.
fn refusal(before: &Before, stack: &[Mask], asks: &[Ask]) -> Option<Verdict> {
    let of = |ask: &Ask| match ask {
        Ask::Top { wanted } => vec![judge(stack[before.start - 1], *wanted)],
        _ => judged(ask, &stack[before.start..]).iter().map(|one| one.verdict).collect(),
    };
    asks.iter().flat_map(of).find(|verdict| verdict.refuses())
}

fn masks(before: &Before) -> Vec<Mask> {
    before.stack.iter().map(|cell| cell.mask).collect()
}

/// The stack that one way brings.
fn by_way(before: &Before, source: &Source, asks: &[Ask]) -> Option<String> {
    let i = before.back.instruction(source.at);
    let place = |place: usize| Some(brought(source, i, place)?.0.mask);
    let stack: Vec<Mask> = (0..before.stack.len()).map(place).collect::<Option<_>>()?;
    let verdict = refusal(before, &stack, asks)?;
    let brought: Vec<String> = stack[looked_at(before)..].iter().map(Mask::to_string).collect();
    Some(format!("What {} brings alone, {}: {}", before.back.named(source.at), brought.join(", "), words(verdict)))
}

/// The first place that a rule looks at: a `Return` looks at what it leaves.
fn looked_at(before: &Before) -> usize {
    before.start.min(before.stack.len().saturating_sub(1))
}

/// The settled stack, but at one place only what comes from one origin.
fn by_origin(before: &Before, place: usize, asks: &[Ask]) -> Vec<String> {
    if place < looked_at(before) {
        return Vec::new();
    }
    let refused = |origin: super::origins::Origin| {
        let mut stack = masks(before);
        stack[place] = origin.mask?;
        let verdict = refusal(before, &stack, asks)?;
        Some(format!("Alone, at stack place {place}, {}: {}", origin.text, words(verdict)))
    };
    before.back.origins(before.at, place).into_iter().filter_map(refused).collect()
}
