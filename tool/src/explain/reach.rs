//! Whether what leaves an instruction can come back to one: by passes, calls, returns and private slots.

use crate::flow::ways;
use genduvo::description::{Description, Instruction, Op};
use std::collections::{BTreeMap, BTreeSet};

/// What values can go through.
#[derive(Debug, Clone, Copy, PartialEq, Eq, PartialOrd, Ord)]
enum Node {
    /// Before an instruction.
    At(u16, usize),
    /// Given back by a chunk.
    Returned(u16),
    /// Held by a private slot.
    Slot(u32),
}

/// Who calls each chunk, and who reads each slot.
struct Users {
    calls: BTreeMap<u16, Vec<(u16, usize)>>,
    reads: BTreeMap<u32, Vec<(u16, usize)>>,
}

/// Whether a `Trap` in each of these places may take something away from what arrives at another.
pub fn takes_away(d: &Description, trapped: &[(u16, usize)], from: (u16, usize)) -> bool {
    let waits = |(chunk, at): &(u16, usize)| {
        let i = &d.chunks[usize::from(*chunk)].code[*at];
        i.op == Op::CALL && suspends(d, i.a as u16)
    };
    reaches(d, trapped, from) || trapped.iter().any(waits)
}

/// Whether anything that leaves one of these places can arrive at the last one.
pub fn reaches(d: &Description, from: &[(u16, usize)], to: (u16, usize)) -> bool {
    let users = users(d);
    let mut seen = BTreeSet::new();
    let mut due: Vec<Node> = from.iter().flat_map(|(chunk, at)| leaving(d, *chunk, *at)).collect();
    while let Some(node) = due.pop() {
        if node == Node::At(to.0, to.1) {
            return true;
        }
        if seen.insert(node) {
            due.extend(next(d, &users, node));
        }
    }
    false
}

fn next(d: &Description, users: &Users, node: Node) -> Vec<Node> {
    let behind = |all: Option<&Vec<(u16, usize)>>| {
        let places = all.into_iter().flatten();
        places.flat_map(|(chunk, at)| passes(d, *chunk, *at)).collect()
    };
    match node {
        Node::At(chunk, at) => leaving(d, chunk, at),
        Node::Returned(chunk) => behind(users.calls.get(&chunk)),
        Node::Slot(slot) => behind(users.reads.get(&slot)),
    }
}

fn passes(d: &Description, chunk: u16, at: usize) -> Vec<Node> {
    let code = &d.chunks[usize::from(chunk)].code;
    ways(code, at).into_iter().map(|way| Node::At(chunk, way.to)).collect()
}

/// Where an instruction's values go.
fn leaving(d: &Description, chunk: u16, at: usize) -> Vec<Node> {
    let i = &d.chunks[usize::from(chunk)].code[at];
    let mut all = passes(d, chunk, at);
    match i.op {
        Op::CALL => all.push(Node::At(i.a as u16, 0)),
        Op::RETURN => all.push(Node::Returned(chunk)),
        Op::SET_DATA | Op::SET_DATA_INDEXED => all.extend(slots(d, i).map(Node::Slot)),
        _ => {}
    }
    all
}

/// The slots that an access names, as far as there are any.
fn slots(d: &Description, i: &Instruction) -> std::ops::Range<u32> {
    let count = if matches!(i.op, Op::GET_DATA_INDEXED | Op::SET_DATA_INDEXED) { i.b } else { 1 };
    i.a..i.a.saturating_add(count).min(d.header.slots.into())
}

fn users(d: &Description) -> Users {
    let mut users = Users { calls: BTreeMap::new(), reads: BTreeMap::new() };
    let all =
        (0u16..).zip(&d.chunks).flat_map(|(chunk, of)| of.code.iter().enumerate().map(move |(at, i)| (chunk, at, i)));
    for (chunk, at, i) in all {
        match i.op {
            Op::CALL => users.calls.entry(i.a as u16).or_default().push((chunk, at)),
            Op::GET_DATA | Op::GET_DATA_INDEXED => {
                slots(d, i).for_each(|slot| users.reads.entry(slot).or_default().push((chunk, at)))
            }
            _ => {}
        }
    }
    users
}

/// Whether a call of this chunk may suspend: then a call that is a `Trap` also changes what the entry's first
/// parameter can be.
fn suspends(d: &Description, chunk: u16) -> bool {
    let mut seen = BTreeSet::new();
    let mut due = vec![chunk];
    while let Some(number) = due.pop() {
        let Some(one) = d.chunks.get(usize::from(number)).filter(|_| seen.insert(number)) else {
            continue;
        };
        if one.code.iter().any(|i| i.site.is_some()) {
            return true;
        }
        due.extend(one.code.iter().filter(|i| i.op == Op::CALL).map(|i| i.a as u16));
    }
    false
}
