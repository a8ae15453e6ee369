//! Where control goes from an instruction, and where it comes from.

use crate::facts::Facts;
use genduvo::Mask;
use genduvo::description::{Instruction, Op};
use genduvo::report::{Cell, Record};

/// A way from one instruction to another of the same chunk.
#[derive(Debug, Clone, Copy, PartialEq, Eq)]
pub struct Way {
    /// The instruction that it leads to.
    pub to: usize,
    /// The condition on this way, where a test has two ways.
    pub condition: Option<bool>,
}

/// All ways that an instruction may have, whatever is known of the values. Those past the end are dropped.
pub fn ways(code: &[Instruction], at: usize) -> Vec<Way> {
    let (op, target, next) = (code[at].op, code[at].a as usize, at + 1);
    let straight = |to| Way { to, condition: None };
    let mut all = match op {
        Op::RETURN | Op::TRAP => Vec::new(),
        Op::ELSE | Op::END_LOOP | Op::BREAK => vec![straight(target)],
        Op::RESET => vec![straight(1)],
        // A branch to the very next instruction decides nothing.
        Op::IF | Op::BREAK_IF if target != next => {
            let jumps_on = op == Op::BREAK_IF;
            vec![Way { to: next, condition: Some(!jumps_on) }, Way { to: target, condition: Some(jumps_on) }]
        }
        _ => vec![straight(next)],
    };
    all.retain(|way| way.to < code.len());
    all
}

/// What a way does to the cell of a place or local behind a test: nothing, or it narrows a local to ENUM.
#[derive(Debug, Clone, Copy, PartialEq, Eq)]
pub enum Passage {
    /// Nothing is learned on this way.
    Plain,
    /// The local is an enum on this way.
    Narrows(u16),
    /// The way is never taken.
    Closed,
}

/// What is known of a way from a recorded instruction.
pub fn passage(record: Record, way: Way) -> Passage {
    let Some(condition) = way.condition else {
        return Passage::Plain;
    };
    let stack = record.stack();
    let Some(tested) = stack.len().checked_sub(1).and_then(|top| stack.get(top)) else {
        return Passage::Plain;
    };
    let other = if condition { Mask::FALSE } else { Mask::TRUE };
    if tested.mask == other {
        return Passage::Closed;
    }
    match tested.predicate {
        Some(predicate) if predicate.when == condition => narrowing(record, predicate.receiver),
        _ => Passage::Plain,
    }
}

/// A local that can't be an enum closes the way where it would be one.
fn narrowing(record: Record, local: u16) -> Passage {
    let receiver = record.locals().get(local.into());
    match receiver.is_some_and(|cell| cell.mask.meets(Mask::ENUM)) {
        true => Passage::Narrows(local),
        false => Passage::Closed,
    }
}

/// An instruction from which control comes, and how.
#[derive(Clone, Copy)]
pub struct Source<'a> {
    /// The instruction.
    pub at: usize,
    /// Its record.
    pub record: Record<'a>,
    /// What the way does.
    pub passage: Passage,
}

/// For each instruction of a chunk, the recorded ones with an open way to it; no way leaves a `Trap`.
pub fn sources<'a>(facts: &Facts<'a>, chunk: u16) -> Vec<Vec<Source<'a>>> {
    let code = &facts.chunk(chunk).code;
    let mut all = vec![Vec::new(); code.len()];
    for at in (0..code.len()).filter(|at| !facts.stopped.contains(&(chunk, *at))) {
        let Some(record) = facts.record(chunk, at) else { continue };
        let passed = ways(code, at).into_iter().map(|way| (way.to, passage(record, way)));
        passed
            .filter(|(_, passage)| *passage != Passage::Closed)
            .for_each(|(to, passage)| all[to].push(Source { at, record, passage }));
    }
    all
}

/// What an instruction brings to a stack place behind it, and whether it made it itself.
pub fn brought(source: &Source, i: &Instruction, place: usize) -> Option<(Cell, bool)> {
    let outputs = source.record.outputs();
    if let Some(output) = outputs.iter().find(|output| usize::from(output.slot) == place) {
        return Some((output.cell, true));
    }
    let height = source.record.stack().len().checked_sub(i.taken.into())?;
    let below = if i.op == Op::RESET { 0 } else { height };
    let cell = source.record.stack().get(place).filter(|_| place < below)?;
    Some((narrowed(cell, source.passage), false))
}

/// A stack cell that was read from a narrowed local is an enum, too.
fn narrowed(cell: Cell, passage: Passage) -> Cell {
    match passage {
        Passage::Narrows(local) if cell.origin == Some(local) => Cell { mask: Mask::ENUM, ..cell },
        _ => cell,
    }
}
