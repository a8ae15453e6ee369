//! Instructions at random: any of them, any operands, jumps anywhere. Heights
//! are followed so that most meet.

use super::random::Random;
use super::world::*;
use crate::model::*;
use crate::ops::*;
use std::collections::BTreeMap;

/// Operands of good form.
pub fn operands(r: &mut Random, w: &World, locals: usize, length: usize, op: u8) -> Option<[u32; 3]> {
    use Operands::*;
    Some(match crate::ops::operands(op) {
        None => [0; 3],
        Constant => {
            let a = r.below(12) as u32;
            let c = if r.often(500) { body_size(r) + 1 } else { r.pick(&[0, 0, 0, 1, u32::MAX]) };
            [a, if a == 1 { r.below(2) as u32 } else { 0 }, c]
        }
        Local if locals == 0 => return Option::None,
        Local => [r.below(locals) as u32, 0, 0],
        Target => [if r.often(30) { r.pick(&[4096, 65535]) } else { r.below(length + 2) as u32 }, 0, 0],
        Callee => [r.below(usize::from(w.d.header.signatures)) as u32, 0, 0],
        Native => [r.below(w.d.natives.len() + 2) as u32, 0, 0],
        Immediate => [if r.often(100) { r.pick(&[3, 20, 255]) } else { r.below(20) as u32 }, 0, 0],
        Slot => {
            let past = usize::from(w.slots.is_empty() || r.often(30));
            [r.below(w.slots.len() + past) as u32, 0, 0]
        }
        Slots => {
            let least = usize::from(w.d.header.layout == 0);
            let a = if r.often(30) { u32::MAX } else { r.below(w.slots.len() + 1) as u32 };
            [a, if r.often(10) { u32::MAX } else { r.between(least, 3) as u32 }, 0]
        }
        Composite => {
            let form = u32::from(r.often(150));
            let size = if form == 1 { 0 } else { body_size(r) + 16 * r.below(2) as u32 };
            [form, r.below(4) as u32, size]
        }
        Read => match r.weighted(&[60, 35, 5]) {
            0 => [0, if r.often(60) { r.pick(&[8, 100, 255]) } else { r.below(8) as u32 }, 0],
            1 => [1, r.below(4) as u32, body_size(r)],
            _ => [2, 0, 0],
        },
    })
}

/// How far a jump goes. A test goes to the very next instruction mostly or never.
fn ahead_by(r: &mut Random, w: &World, op: u8) -> usize {
    match op {
        IF | BREAK_IF if w.next_branches => r.pick(&[1, 1, 1, 2, 5]),
        IF | BREAK_IF => r.between(2, 6),
        _ => r.between(1, 6),
    }
}

pub fn chunk(r: &mut Random, w: &World, number: usize, length: usize) -> Chunk {
    let mut chunk = w.d.chunks[number].clone();
    let locals = usize::from(chunk.locals);
    let mut code: Vec<Instruction> = Vec::new();
    let mut heights: Vec<usize> = Vec::new();
    // Heights that jumps ahead ask for.
    let mut ahead: BTreeMap<usize, usize> = BTreeMap::new();
    let (mut height, mut deepest) = (0usize, 0);
    while code.len() < length {
        let here = code.len();
        if let Some(wanted) = ahead.get(&here) {
            height = *wanted;
        }
        heights.push(height);
        if let Some(wanted) = ahead.get(&(here + 1)).copied() {
            let given = wanted.saturating_sub(height).min(4);
            let taken = height.saturating_sub(wanted);
            code.push(Instruction::new(POP_N, taken as u8, given as u8, 0, 0, 0));
            height = wanted;
            deepest = deepest.max(height);
            continue;
        }
        let op = if w.next_branches && height > 0 && r.often(200) {
            r.pick(&[IF, BREAK_IF])
        } else if height < 3 && r.often(550) {
            r.pick(&[CONST, PUSH_IMMEDIATE, GET_LOCAL, GET_LOCAL, GET_DATA, CALL_EXTERNAL_NATIVE])
        } else {
            r.below(66) as u8
        };
        let data = matches!(crate::ops::operands(op), Operands::Slot | Operands::Slots);
        if data && w.slots.is_empty() && !r.often(20) || op == LEN && !r.often(100) || op == TRAP && r.often(700) || op == RESET && r.often(600) {
            heights.pop();
            continue;
        }
        let Some(mut abc) = operands(r, w, locals, length, op) else {
            heights.pop();
            continue;
        };
        let (least, most) = taken(op);
        let usual = match op {
            ADD..=MOD | FIXED_MUL | FIXED_DIV | CHECKED_ADD..=CHECKED_MUL | CHECKED_DIV | CHECKED_MOD
            | BIT_AND..=BIT_XOR | GET_DATA_INDEXED | SET_DATA_INDEXED => 2,
            NEG | CHECKED_NEG => 1,
            NEW_COMPOSITE | POP_N => r.below(4),
            CALL => w.d.chunks[abc[0] as usize].params().min(height),
            _ => usize::from(least),
        };
        let mut takes = if r.often(60) { r.between(0, 3) } else { usual };
        takes = takes.clamp(usize::from(least), usize::from(most));
        if takes > height && !r.often(15) {
            heights.pop();
            if height < 4 || r.often(500) {
                heights.push(height);
                code.push(Instruction::new(PUSH_IMMEDIATE, 0, 1, r.below(20) as u32, 0, 0));
                height += 1;
                deepest = deepest.max(height);
            }
            continue;
        }
        let (low, high) = given(op);
        let gives = if r.often(120) { r.between(usize::from(low), usize::from(high)) } else { usize::from(low) };
        let gives = if op == DUP && r.often(800) { 2 } else { gives };
        let mut after = (height.saturating_sub(takes) + gives).min(64);
        if op == RESET {
            after = gives;
        }
        if crate::ops::operands(op) == Operands::Target && op != LOOP && !r.often(15) {
            let same: Vec<usize> = (0..heights.len()).filter(|at| heights[*at] == after).collect();
            if !same.is_empty() && r.often(250) {
                abc[0] = r.pick(&same) as u32;
            } else {
                let to = here + ahead_by(r, w, op);
                abc[0] = to as u32;
                let wanted = *ahead.entry(to).or_insert(after);
                if wanted != after && !r.often(30) {
                    abc[0] = length as u32 + 1;
                }
            }
        }
        let mut one = Instruction::new(op, takes as u8, gives as u8, abc[0], abc[1], abc[2]);
        if op == YIELD || r.often(4) {
            let Some(reply) = w.dialogue else {
                heights.pop();
                continue;
            };
            one.site = Some(site(r, w, reply));
        }
        code.push(one);
        height = after;
        deepest = deepest.max(height);
    }
    chunk.deepest = (deepest + r.below(3)).min(64) as u16;
    chunk.code = code;
    chunk
}
