//! Descriptions with something wrong: one value changed, bytes and fields
//! moved about, largest values and one past them.

use super::random::Random;
use crate::model::*;
use crate::ops;

fn odd(r: &mut Random) -> u32 {
    r.pick(&[0, 1, 2, 3, 4, 5, 7, 8, 11, 12, 15, 16, 17, 31, 32, 64, 65, 255, 256, 257, 1024, 1025, 65535, 65536, u32::MAX])
}

/// Changes one value of the description.
pub fn edit(r: &mut Random, d: &mut Description) {
    let value = odd(r);
    let small = value as u8;
    match r.weighted(&[6, 10, 60, 6, 4, 4, 4]) {
        0 => match r.below(8) {
            0 => d.header.float_bits_log2 = small,
            1 => d.header.entry = value as u16,
            2 => d.header.chunks = value as u16,
            3 => d.header.signatures = value as u16,
            4 => d.header.layout = r.below(3) as u8,
            5 => d.header.slots = value as u16,
            6 => d.header.owns_bodies = r.below(3) as u8,
            _ => d.header.handle = r.pick(&[0, 1, 2, 3, 5, 6, 7, 9, 12, 16, 255]),
        },
        1 => {
            let Some(chunk) = some(r, &mut d.chunks) else { return };
            match r.below(9) {
                0 => chunk.reachable = r.below(3) as u8,
                1 => chunk.block = r.below(4) as u8,
                2 => chunk.locals = value as u16,
                3 => chunk.deepest = value as u16,
                4 => chunk.param_count = small,
                5 => chunk.tags.resize(usize::from(small).min(20), 0),
                6 => chunk.tags.push(r.below(9) as u8),
                _ => {
                    let Some(signature) = &mut chunk.signature else { return };
                    if r.often(400) {
                        signature.params.resize(usize::from(small).min(20), Shape::default());
                    } else if r.often(500) {
                        shape(r, &mut signature.result);
                    } else if let Some(one) = some(r, &mut signature.params) {
                        shape(r, one);
                    }
                }
            }
        }
        2 => {
            let Some(chunk) = some(r, &mut d.chunks) else { return };
            let count = chunk.code.len();
            match r.weighted(&[20, 20, 25, 8, 8, 4, 5, 5, 5]) {
                0 => one(r, chunk, |i, v, _| i.taken = v),
                1 => one(r, chunk, |i, v, _| i.given = v),
                2 => one(r, chunk, |i, v, _| i.a = u32::from(v)),
                3 => one(r, chunk, |i, _, w| i.a = w),
                4 => one(r, chunk, |i, _, w| i.b = w),
                5 => one(r, chunk, |i, _, w| i.c = w),
                6 => one(r, chunk, |i, v, _| i.op = v % 67),
                7 if count > 0 => {
                    chunk.code.remove(r.below(count));
                }
                8 if count > 0 => {
                    let again = chunk.code[r.below(count)];
                    chunk.code.insert(r.below(count), again);
                }
                _ => {
                    if let Some(i) = some(r, &mut chunk.code) {
                        i.site = match i.site {
                            Some(mut site) if r.often(600) => {
                                let one = if r.often(500) { &mut site.yielded } else { &mut site.reply };
                                shape(r, one);
                                Some(site)
                            }
                            Some(_) => None,
                            None => Some(Site::default()),
                        };
                    }
                }
            }
        }
        3 => {
            if let Some(native) = some(r, &mut d.natives) {
                native.snapshot = r.below(3) as u8;
                shape(r, &mut native.shape);
            }
        }
        4 => d.shared.push(small),
        5 => d.placements.push(Placement { slot: value as u16, offset: odd(r) }),
        _ => d.initializers.push(Initializer { place: r.below(13) as u8, value: r.below(3) as u8 }),
    }
}
fn some<'a, T>(r: &mut Random, all: &'a mut [T]) -> Option<&'a mut T> {
    if all.is_empty() {
        return None;
    }
    let at = r.below(all.len());
    Some(&mut all[at])
}
fn one(r: &mut Random, chunk: &mut Chunk, change: impl FnOnce(&mut Instruction, u8, u32)) {
    let length = chunk.code.len();
    let (small, wide) = (r.pick(&[0, 1, 1, 2, 3, 4, r_small(length)]), odd(r));
    if let Some(i) = some(r, &mut chunk.code) {
        change(i, small, wide);
    }
}
fn r_small(length: usize) -> u8 {
    length.min(255) as u8
}
fn shape(r: &mut Random, shape: &mut Shape) {
    match r.below(4) {
        0 => shape.tag = r.below(4) as u8,
        1 => shape.kind = odd(r) as u8,
        2 => shape.width = r.below(4) as u8,
        _ => shape.size = odd(r),
    }
}

/// Moves bytes and fields about.
pub fn bytes(r: &mut Random, bytes: &mut Vec<u8>) {
    let mut fields: Vec<(usize, usize)> = Vec::new();
    let mut at = 0;
    while let Some((_, contents, _)) = split_field(&bytes[at..]) {
        fields.push((at, at + 3 + contents.len()));
        at += 3 + contents.len();
    }
    if bytes.is_empty() || fields.is_empty() {
        bytes.push(r.below(10) as u8);
        return;
    }
    let (from, to) = r.pick(&fields);
    match r.weighted(&[40, 8, 8, 8, 8, 6, 6, 6, 10]) {
        0 => {
            let at = r.below(bytes.len());
            bytes[at] = if r.often(500) { bytes[at] ^ (1 << r.below(8)) } else { odd(r) as u8 };
        }
        1 => bytes.truncate(if r.often(500) { from } else { r.below(bytes.len()) }),
        2 => drop(bytes.drain(from..to)),
        3 => {
            let copy = bytes[from..to].to_vec();
            bytes.splice(from..from, copy);
        }
        4 => {
            let (other, end) = r.pick(&fields);
            let copy = bytes[other..end].to_vec();
            bytes.splice(from..from, copy);
        }
        5 => {
            let count = r.between(1, 4);
            bytes.extend((0..count).map(|_| r.below(20) as u8));
        }
        6 => bytes[from] = r.pick(&[0, 1, 2, 3, 4, 5, 6, 7, 8, 9, 16, 255]),
        7 => {
            let length = (to - from - 3) as u16;
            let length = if r.often(500) { length.wrapping_add(1) } else { length.wrapping_sub(1) };
            bytes[from + 1..from + 3].copy_from_slice(&length.to_le_bytes());
        }
        _ => {
            // A field grows or shrinks with its length.
            let length = to - from - 3;
            if r.often(500) || length == 0 {
                bytes.insert(to, r.below(3) as u8);
                bytes[from + 1..from + 3].copy_from_slice(&(length as u16 + 1).to_le_bytes());
            } else {
                bytes.remove(to - 1);
                bytes[from + 1..from + 3].copy_from_slice(&(length as u16 - 1).to_le_bytes());
            }
        }
    }
}

/// A largest value, or one past it. What grows is given along so that only
/// the number itself can be wrong.
pub fn largest(r: &mut Random, d: &mut Description) {
    let past = usize::from(r.often(500));
    let last = d.chunks.len() - 1;
    let plain = Chunk { reachable: r.below(2) as u8, deepest: 1, signature: Some(Signature::default()), ..Chunk::default() };
    let with_layout = d.header.layout == 1;
    match r.below(16) {
        0 if d.header.signatures == d.header.chunks => {
            let mut plain = plain;
            plain.code.push(Instruction::new(ops::TRAP, 0, 0, 0, 0, 0));
            d.chunks.resize(64 + past, plain);
            d.header.chunks = 64 + past as u16;
            d.header.signatures = d.header.chunks;
        }
        1 => d.header.signatures = d.header.chunks + past as u16,
        2 => d.header.float_bits_log2 = 31 + past as u8,
        3 if with_layout => d.header.slots = 1024 + past as u16,
        4 => d.chunks[last].locals = 256 + past as u16,
        5 => d.chunks[last].deepest = 64 + past as u16,
        6 => d.chunks[last].param_count = 16 + past as u8,
        7 => d.chunks[last].tags.resize(16 + past, 0),
        8 => {
            d.chunks[last].locals = d.chunks[last].locals.max(15 + r.below(3) as u16);
            if let Some(signature) = &mut d.chunks[last].signature {
                signature.params.resize(16 + past, Shape { tag: 1, kind: 3, width: 1, size: 8 });
                d.chunks[last].param_count = 16 + past as u8;
            }
        }
        9 => d.natives.resize(256 + past, Native::default()),
        10 if with_layout => d.shared.resize(1024 + past, 3),
        11 if with_layout => d.placements.resize(1024 + past, Placement { slot: 2000, offset: 0 }),
        12 if with_layout => d.initializers.resize(1024 + past, Initializer::default()),
        13 => d.chunks[last].code.push(Instruction::new(ops::POP_N, 64 + past as u8, 0, 0, 0, 0)),
        14 => d.chunks[last].code.push(Instruction::new(ops::POP_N, 0, 4 + past as u8, 0, 0, 0)),
        _ => {
            let fill = Instruction::new(ops::END_IF, 0, 0, 0, 0, 0);
            if r.often(30) {
                d.chunks[last].code.resize(4096 + past, fill);
            } else {
                let most = [(ops::IF, 65535), (ops::PUSH_IMMEDIATE, 255), (ops::CALL_EXTERNAL_NATIVE, 65535)];
                let (op, a) = r.pick(&most);
                let one = Instruction::new(op, u8::from(op == ops::IF), u8::from(op != ops::IF), a + past as u32, 0, 0);
                d.chunks[last].code.push(one);
            }
        }
    }
}
