//! Makes a description smaller as long as a property stays.

use oracle::model::{Description, USUAL_HANDLE};
use oracle::ops::{Operands, operands};

/// Without instruction `at` of a chunk; later targets move along.
fn without(d: &Description, chunk: usize, at: usize) -> Description {
    let mut d = d.clone();
    let code = &mut d.chunks[chunk].code;
    code.remove(at);
    for i in code.iter_mut() {
        if operands(i.op) == Operands::Target && i.a as usize > at {
            i.a -= 1;
        }
    }
    d
}

/// Without a chunk that is not the entry and that no other chunk calls.
fn without_chunk(d: &Description, number: usize) -> Option<Description> {
    let mut d = d.clone();
    if number == usize::from(d.header.entry) || d.header.chunks == 0 {
        return None;
    }
    d.chunks.remove(number);
    d.header.chunks -= 1;
    d.header.signatures -= u16::from(number < usize::from(d.header.signatures));
    d.header.entry -= u16::from(number < usize::from(d.header.entry));
    for i in d.chunks.iter_mut().flat_map(|chunk| &mut chunk.code) {
        if operands(i.op) == Operands::Callee {
            if i.a as usize == number {
                return None;
            }
            i.a -= u32::from(i.a as usize > number);
        }
    }
    Some(d)
}

fn smaller(d: &Description) -> Vec<Description> {
    let mut all = Vec::new();
    let mut changed = |change: &dyn Fn(&mut Description)| {
        let mut other = d.clone();
        change(&mut other);
        if other != *d {
            all.push(other);
        }
    };
    for number in 0..d.chunks.len() {
        if let Some(fewer) = without_chunk(d, number) {
            changed(&|d| *d = fewer.clone());
        }
    }
    for chunk in 0..d.chunks.len() {
        changed(&|d| d.chunks[chunk].reachable = 0);
        let length = d.chunks[chunk].code.len();
        changed(&|d| d.chunks[chunk].code.truncate(length / 2));
        changed(&|d| d.chunks[chunk].code.truncate(length * 3 / 4));
    }
    changed(&|d| d.natives.clear());
    changed(&|d| _ = d.natives.pop());
    changed(&|d| d.shared.clear());
    changed(&|d| d.placements.clear());
    changed(&|d| _ = d.placements.pop());
    changed(&|d| d.initializers.clear());
    changed(&|d| _ = d.initializers.pop());
    changed(&|d| d.header.owns_bodies = 0);
    changed(&|d| d.header.persistent_composite_bytes = 0);
    changed(&|d| d.header.handle = USUAL_HANDLE);
    for chunk in 0..d.chunks.len() {
        changed(&|d| d.chunks[chunk].tags.clear());
        changed(&|d| _ = d.chunks[chunk].code.pop());
        for at in 0..d.chunks[chunk].code.len() {
            changed(&|d| d.chunks[chunk].code[at].site = None);
        }
    }
    for chunk in 0..d.chunks.len() {
        for at in (0..d.chunks[chunk].code.len()).rev() {
            all.push(without(d, chunk, at));
        }
    }
    all
}

pub fn shrink(d: Description, holds: &mut dyn FnMut(&Description) -> bool) -> Description {
    let mut best = d;
    let mut trials = 0;
    'again: loop {
        for one in smaller(&best) {
            trials += 1;
            if trials > 3000 {
                return best;
            }
            if holds(&one) {
                best = one;
                continue 'again;
            }
        }
        return best;
    }
}
