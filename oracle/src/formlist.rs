//! Writes the stored list of descriptions at the bounds of good form, with what
//! the oracle's reader answers to each; the program of crates/formreplay runs it.
//!
//! An entry, numbers low byte first: becomes the base (u8), place (u32), bytes
//! dropped there (u32), bytes put in (u16), how often (u32), those bytes; then the
//! answer: number (u8, 0 for good form), chunk and instruction (u16), W (u64, 0
//! where refused). The description is the base with the bytes put in.

use oracle::form;
use oracle::model::*;
use oracle::ops::{self, Operands};
use std::io::Write;

#[global_allocator]
static POOL: oracle::pool::Pool = oracle::pool::Pool;

struct List {
    base: Vec<u8>,
    out: Vec<u8>,
    count: usize,
}

impl List {
    fn entry(&mut self, becomes: bool, at: usize, dropped: usize, put: &[u8], times: usize) {
        let mut made = self.base[..at].to_vec();
        for _ in 0..times {
            made.extend_from_slice(put);
        }
        made.extend_from_slice(&self.base[at + dropped..]);
        assert!(made.len() <= 131_072, "a description of {} bytes", made.len());
        self.out.push(becomes as u8);
        put32(&mut self.out, at as u32);
        put32(&mut self.out, dropped as u32);
        put16(&mut self.out, put.len() as u16);
        put32(&mut self.out, times as u32);
        self.out.extend_from_slice(put);
        let (number, chunk, instruction, words) = match form::check(&made) {
            Ok(()) => (0, 65535, 65535, Description::decode(&made).expect("good form").least_words()),
            Err(r) => (r.number, r.chunk, r.instruction, 0),
        };
        self.out.push(number);
        put16(&mut self.out, chunk);
        put16(&mut self.out, instruction);
        put32(&mut self.out, words as u32);
        put32(&mut self.out, (words >> 32) as u32);
        self.count += 1;
        if becomes {
            assert!(made.len() <= 16384, "a base of {} bytes", made.len());
            self.base = made;
        }
    }

    /// A new base, whatever its form.
    fn base(&mut self, bytes: &[u8]) {
        let all = self.base.len();
        self.entry(true, 0, all, bytes, 1);
    }

    fn replace(&mut self, at: usize, bytes: &[u8]) {
        self.entry(false, at, bytes.len(), bytes, 1);
    }

    /// A number at a place as it stands, and each of these in its stead.
    fn numbers(&mut self, at: usize, bytes: usize, values: &[u32]) {
        for value in values {
            self.replace(at, &value.to_le_bytes()[..bytes]);
        }
    }

    /// The places of the fields of the base: tag, place, length.
    fn fields(&self) -> Vec<(u8, usize, usize)> {
        let mut found = Vec::new();
        let mut at = 0;
        while at + 3 <= self.base.len() {
            let len = self.base[at + 1] as usize + 256 * self.base[at + 2] as usize;
            found.push((self.base[at], at, len));
            at += 3 + len;
        }
        found
    }
}

fn shape(tag: u8, kind: u8, width: u8, size: u32) -> Shape {
    Shape { tag, kind, width, size }
}

/// An instruction of good form.
fn fitting(op: u8) -> Instruction {
    let (a, b, c) = match ops::operands(op) {
        Operands::Slots => (0, 1, 0),
        _ => (0, 0, 0),
    };
    let mut i = Instruction::new(op, ops::taken(op).0, ops::given(op).0, a, b, c);
    if op == ops::YIELD {
        i.site = Some(Site { yielded: shape(1, 3, 1, 8), reply: shape(2, 2, 2, 24) });
    }
    i
}

/// Every instruction once, two signatures, a chunk past them, all tables.
fn whole() -> Description {
    let code: Vec<Instruction> = (0..66).map(fitting).collect();
    let signature = Signature { params: vec![shape(1, 3, 1, 8), shape(0, 0, 0, 0)], result: shape(2, 1, 2, 16) };
    let chunk = |locals, signature: Option<Signature>, code: Vec<Instruction>| Chunk {
        reachable: 1,
        block: 0,
        locals,
        deepest: 3,
        param_count: 2,
        tags: vec![2, 0],
        signature,
        code,
    };
    Description {
        header: Header { float_bits_log2: 6, entry: 1, chunks: 3, signatures: 2, layout: 1, slots: 4, owns_bodies: 1, persistent_composite_bytes: 64, handle: 8 },
        chunks: vec![
            chunk(2, Some(signature.clone()), code),
            chunk(5, Some(Signature { params: vec![], result: signature.result }), vec![fitting(57), fitting(31)]),
            chunk(0, None, vec![fitting(50)]),
        ],
        natives: vec![Native { shape: shape(2, 3, 2, 8), snapshot: 1 }, Native { shape: shape(1, 1, 1, 1), snapshot: 0 }],
        shared: vec![3, 130],
        placements: vec![Placement { slot: 3, offset: 8 }, Placement { slot: 9, offset: 0 }],
        initializers: vec![Initializer { place: 1, value: 1 }, Initializer { place: 11, value: 0 }],
    }
}

/// A description of n chunks with a signature and one instruction each.
fn many(n: usize) -> Vec<u8> {
    let one = Chunk {
        reachable: 1,
        signature: Some(Signature::default()),
        code: vec![fitting(50)],
        ..Chunk::default()
    };
    let header = Header { chunks: n as u16, signatures: n as u16, entry: n as u16 - 1, ..Header::default() };
    Description { header, chunks: vec![one; n], ..Description::default() }.encode()
}

/// Around each number of a field: its largest value, one past it, and the ends of its bytes.
fn bounds(list: &mut List, tag: u8, at: usize) {
    match tag {
        1 => {
            list.numbers(at + 3, 1, &[0, 31, 32, 255]);
            list.numbers(at + 4, 2, &[0, 1, 2, 65535]);
            list.numbers(at + 6, 2, &[0, 2, 4, 64, 65, 65535]);
            list.numbers(at + 8, 2, &[0, 1, 3, 4, 65, 65535]);
            for flag in [10, 13] {
                list.numbers(at + flag, 1, &[0, 1, 2, 255]);
            }
            list.numbers(at + 11, 2, &[0, 1, 1024, 1025, 65535]);
            list.numbers(at + 18, 1, &(0..256).collect::<Vec<_>>());
            handles(list, at);
        }
        2 => {
            list.numbers(at + 3, 1, &[0, 1, 2, 255]);
            list.numbers(at + 4, 1, &[2, 3, 255]);
            list.numbers(at + 5, 2, &[0, 1, 2, 256, 257, 65535]);
            list.numbers(at + 7, 2, &[0, 64, 65, 65535]);
            list.numbers(at + 9, 1, &[0, 16, 17, 255]);
            list.numbers(at + 10, 1, &[0, 1, 16, 17, 255]);
            list.numbers(at + 11, 1, &[7, 8, 255]);
        }
        3 => {
            let op = list.base[at + 3];
            list.numbers(at + 3, 1, &[65, 66, 255]);
            let (least, most) = ops::taken(op);
            list.numbers(at + 4, 1, &[least.saturating_sub(1) as u32, least as u32, most as u32, most as u32 + 1, 64, 65, 255]);
            let (least, most) = ops::given(op);
            list.numbers(at + 5, 1, &[least.saturating_sub(1) as u32, least as u32, most as u32, most as u32 + 1, 4, 5, 255]);
            for operand in [6, 10, 14] {
                list.numbers(at + operand, 4, &[0, 1, 2, 3, 4, 11, 12, 255, 256, 65535, 65536, u32::MAX]);
            }
        }
        4 => {
            for byte in [3, 5, 10, 12] {
                list.numbers(at + byte, 1, &[2, 3, 255]);
            }
        }
        5 => {
            list.numbers(at + 3, 1, &[2, 3]);
            list.numbers(at + 5, 1, &[2, 3]);
            list.numbers(at + 10, 1, &[0, 1, 2, 255]);
        }
        6 => list.numbers(at + 3, 1, &[0, 255]),
        7 => list.numbers(at + 3, 2, &[0, 65535]),
        _ => {
            list.numbers(at + 3, 1, &[11, 12, 255]);
            list.numbers(at + 4, 1, &[0, 1, 2, 255]);
        }
    }
}

/// Sizes of a handle together with another fault of the field, and the field without
/// its last byte or with one more: the lowest number counts.
fn handles(list: &mut List, at: usize) {
    const LEN: usize = 16;
    let header = list.base[at..at + 3 + LEN].to_vec();
    // Float bits, entry, chunks and the layout, each past what may be.
    for (other, bad) in [(3, 32), (4, 9), (6, 65), (10, 2)] {
        for size in [0, 3, 4, 5, 6, 7, 8, 9, 16, 255] {
            let mut both = header.clone();
            (both[other], both[2 + LEN]) = (bad, size);
            list.replace(at, &both);
        }
        for len in [LEN - 1, LEN + 1] {
            let mut both = header.clone();
            (both[1], both[other]) = (len as u8, bad);
            both.resize(3 + len, 8);
            list.entry(false, at, 3 + LEN, &both, 1);
        }
    }
}

/// A length one short and one long, the contents as they are and cut or drawn out with it; the field gone, twice, under another tag.
fn lengths(list: &mut List, tag: u8, at: usize, len: usize) {
    let short = (len as u16 - 1).to_le_bytes();
    let long = (len as u16 + 1).to_le_bytes();
    list.replace(at + 1, &short);
    list.replace(at + 1, &long);
    let mut contents = list.base[at..at + 3 + len].to_vec();
    contents[1..3].copy_from_slice(&long);
    contents.push(0);
    list.entry(false, at, 3 + len, &contents, 1);
    contents[1..3].copy_from_slice(&short);
    contents.truncate(3 + len - 1);
    list.entry(false, at, 3 + len, &contents, 1);
    let whole = list.base[at..at + 3 + len].to_vec();
    list.entry(false, at, 3 + len, &[], 1);
    list.entry(false, at, 0, &whole, 1);
    list.numbers(at, 1, &[0, (tag as u32 + 1) % 9, 9, 255]);
}

/// Counts that only many fields reach: instructions, natives, the fields of tags 6, 7 and 8, chunks.
fn counts(list: &mut List) {
    let fields = list.fields();
    let after = |tag: u8| fields.iter().filter(|f| f.0 == tag).map(|f| f.1 + 3 + f.2).next_back().unwrap();
    let one = |tag: u8| fields.iter().find(|f| f.0 == tag).map(|f| list.base[f.1..f.1 + 3 + f.2].to_vec()).unwrap();
    let more: Vec<(usize, Vec<u8>, [usize; 2])> = vec![
        (after(3), one(3), [4095, 4096]),
        (after(5), one(5), [254, 255]),
        (after(6), one(6), [1022, 1023]),
        (after(7), one(7), [1022, 1023]),
        (after(8), one(8), [1022, 1023]),
    ];
    for (at, field, times) in more {
        for n in times {
            list.entry(false, at, 0, &field, n);
        }
    }
    for n in [1, 2, 63, 64, 65] {
        list.base(&many(n));
    }
}

fn main() {
    let mut list = List { base: Vec::new(), out: Vec::new(), count: 0 };
    list.base(&[]);
    list.base(&whole().encode());
    for n in 0..list.base.len() {
        let rest = list.base.len() - n;
        list.entry(false, n, rest, &[], 1);
    }
    for (tag, at, len) in list.fields() {
        bounds(&mut list, tag, at);
        lengths(&mut list, tag, at, len);
    }
    counts(&mut list);
    std::io::stdout().write_all(&list.out).expect("output");
    eprintln!("{} descriptions", list.count);
}
