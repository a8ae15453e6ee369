//! What a generated description has beside its code: signatures, slots,
//! natives, dialogue.

use super::random::Random;
use crate::judged::Text;
use crate::model::*;

pub const UNIT: u16 = 1;
pub const FALSE: u16 = 2;
pub const BYTE: u16 = 4;
pub const WORD: u16 = 8;
pub const FIXED: u16 = 16;
pub const FLOAT: u16 = 32;
pub const TEXT: u16 = 64;
pub const OPAQUE: u16 = 128;
pub const TUPLE: u16 = 256;
pub const ARRAY: u16 = 512;
pub const STRUCT: u16 = 1024;
pub const ENUM: u16 = 2048;
pub const TRUE: u16 = 4096;
pub const BOOL: u16 = FALSE | TRUE;
pub const BODY: u16 = TUPLE | ARRAY | STRUCT | ENUM;
pub const UNKNOWN: u16 = 8191;
/// What an instruction of two operands takes.
pub const NUMERIC: u16 = BYTE | WORD | FIXED | FLOAT;
/// Kinds that a value may have without harm almost everywhere.
pub const PLAIN: u16 = UNIT | BOOL | BYTE | WORD | FIXED | FLOAT | BODY;

/// What a place likely holds: kinds, and the largest size of a body.
#[derive(Debug, Clone, Copy, PartialEq, Eq)]
pub struct Likely {
    pub mask: u16,
    pub size: u32,
}
/// The size of a body whose extent is not known.
pub const UNSIZED: u32 = u32::MAX;
pub fn likely(mask: u16) -> Likely {
    Likely { mask, size: if mask & BODY != 0 { UNSIZED } else { 0 } }
}
impl Likely {
    pub fn join(self, other: Likely) -> Likely {
        Likely { mask: self.mask | other.mask, size: self.size.max(other.size) }
    }
    /// The bytes that the value packs into at most.
    pub fn bytes(self, sizes: Sizes) -> u32 {
        let mut most = 0;
        for (mask, bytes) in [
            (BOOL | BYTE, 1),
            (WORD | FIXED, 8),
            (FLOAT, sizes.float),
            (OPAQUE, sizes.handle),
            (BODY, self.size),
        ] {
            if self.mask & mask != 0 {
                most = most.max(bytes);
            }
        }
        most
    }
}

/// The bytes of a float and of a handle in a body.
#[derive(Debug, Clone, Copy, PartialEq, Eq)]
pub struct Sizes {
    pub float: u32,
    pub handle: u32,
}
impl Sizes {
    /// The scalar kinds, the usual ones more often. Where handles are short
    /// there are more of them, or hardly a body would have one.
    fn kinds(self) -> [u8; 16] {
        if self.handle == u32::from(SHORT_HANDLE) {
            [0, 1, 1, 2, 2, 3, 3, 3, 7, 7, 4, 7, 5, 7, 6, 7]
        } else {
            [0, 1, 1, 2, 2, 3, 3, 3, 3, 3, 4, 4, 5, 5, 6, 7]
        }
    }
}

pub fn mask_of(shape: &Shape) -> u16 {
    match (shape.tag, shape.kind) {
        (1, 1) => BOOL,
        (1, kind @ 0..=7) => 1 << kind,
        (2, kind @ 0..=3) => TUPLE << kind,
        (2, _) => BODY,
        _ => UNKNOWN,
    }
}
pub fn of_shape(shape: &Shape) -> Likely {
    Likely { size: if shape.width == 2 { shape.size } else { likely(mask_of(shape)).size }, mask: mask_of(shape) }
}

pub struct World {
    /// Header, chunks without code, natives, slots.
    pub d: Description,
    /// Thousandths of choices that look at no kind.
    pub reckless: usize,
    /// Branches to the very next instruction are made: many of them, or none.
    pub next_branches: bool,
    pub sizes: Sizes,
    pub slots: Vec<Likely>,
    pub placed: Vec<bool>,
    /// Sites may be made, with this reply mostly.
    pub dialogue: Option<Shape>,
}

pub fn body_size(r: &mut Random) -> u32 {
    r.pick(&[0, 1, 7, 8, 8, 8, 9, 16, 16, 16, 24, 24, 32, 40, 64])
}

/// Mostly with room for a discriminant where it may be an enum.
pub fn size_for(r: &mut Random, kind: u16) -> u32 {
    let size = body_size(r);
    if kind & ENUM != 0 && !r.often(40) { size.max(8) } else { size }
}

pub fn shape(r: &mut Random, sizes: Sizes) -> Shape {
    match r.weighted(&[70, 24, 4, 2]) {
        0 => {
            let kind = r.pick(&sizes.kinds());
            let size = [0, 1, 1, 8, 8, sizes.float, 0, 8][usize::from(kind)];
            let width = u8::from(kind < 6 && !r.often(60));
            Shape { tag: 1, kind, width, size: if width == 0 { 0 } else { size } }
        }
        1 => {
            let kind = r.pick(&[0, 0, 1, 1, 2, 2, 3, 3, 3, 4, 4]);
            Shape { tag: 2, kind, width: 2, size: size_for(r, if kind > 2 { ENUM } else { TUPLE }) }
        }
        2 => Shape { tag: 0, kind: r.below(9) as u8, width: r.below(3) as u8, size: body_size(r) },
        _ => Shape {
            tag: r.below(3) as u8,
            kind: r.pick(&[0, 1, 3, 4, 7, 8, 9, 128, 255]),
            width: r.below(3) as u8,
            size: r.pick(&[0, 1, 8, 16, 65535, u32::MAX, u32::MAX - 1]),
        },
    }
}
/// A shape that bounds its body, for replies.
fn bounded(r: &mut Random, sizes: Sizes) -> Shape {
    loop {
        let one = shape(r, sizes);
        if mask_of(&one) & BODY == 0 || one.width == 2 || r.often(60) {
            return one;
        }
    }
}

fn tag_of(shape: &Shape) -> u8 {
    match (shape.tag, shape.kind) {
        (1, 0) => 6,
        (1, 1) => 5,
        (1, 2) => 1,
        (1, 3) => 2,
        (1, 4) => 3,
        (1, 5) => 4,
        (1, 6) => 7,
        _ => 0,
    }
}

fn chunk(r: &mut Random, number: usize, w: &World) -> Chunk {
    let entry = number == usize::from(w.d.header.entry);
    let params: Vec<Shape> = (0..r.weighted(&[35, 32, 18, 10, 5]))
        .map(|k| if entry && k == 0 { bounded(r, w.sizes) } else { shape(r, w.sizes) })
        .collect();
    let mut tags: Vec<u8> = params.iter().map(|s| if r.often(150) { 0 } else { tag_of(s) }).collect();
    if r.often(8) {
        tags.push(r.below(8) as u8);
    }
    if r.often(8) {
        tags.pop();
    }
    if !tags.is_empty() && r.often(4) {
        let at = r.below(tags.len());
        tags[at] = r.below(8) as u8;
    }
    let param_count = params.len() as u8 + u8::from(r.often(4));
    let locals = params.len() + r.weighted(&[20, 25, 25, 15, 10, 5]);
    let past = number >= usize::from(w.d.header.signatures);
    Chunk {
        reachable: u8::from(if past { r.often(80) } else { entry || !r.often(80) } && !r.often(5)),
        block: if entry { r.pick(&[0, 0, 1, 2, 2, 2]) } else { r.pick(&[0, 0, 0, 1, 2]) },
        locals: locals as u16,
        deepest: 0,
        param_count,
        tags,
        signature: (!past).then(|| Signature { params, result: shape(r, w.sizes) }),
        code: Vec::new(),
    }
}

fn slots(r: &mut Random, w: &mut World) {
    let (d, reckless) = (&mut w.d, w.reckless);
    d.header.layout = 1;
    let shared = r.weighted(&[40, 25, 20, 15]);
    let private = r.weighted(&[10, 20, 25, 25, 20]);
    d.header.slots = (shared + private) as u16;
    for _ in 0..shared {
        let kind = r.pick(&[0, 1, 2, 3, 3, 3, 4, 5, 6, 7, 8, 128, 129, 130, 131, 132, 200, 255]);
        d.shared.push(kind);
        let mask = match kind {
            1 => BOOL,
            0..=7 => 1 << kind,
            128..=131 => TUPLE << (kind - 128),
            _ => BODY,
        };
        w.slots.push(likely(mask));
    }
    let first_placed = shared + r.below(private + 1);
    let mut offset = 0;
    for slot in shared..shared + private {
        if slot >= first_placed {
            let size = body_size(r);
            d.placements.push(Placement { slot: slot as u16, offset });
            offset += size;
            let kind = r.pick(&[TUPLE, ARRAY, STRUCT, ENUM, ENUM, BODY]);
            w.slots.push(Likely { mask: kind | UNIT, size });
            d.initializers.push(Initializer::default());
            continue;
        }
        let place = r.pick(&[0, 1, 1, 2, 2, 2, 3, 4, 5, 6]);
        let value = r.below(2) as u8;
        d.initializers.push(Initializer { place, value });
        let mask = [UNIT, BOOL, WORD, BYTE, FIXED, FLOAT, TEXT][usize::from(place)];
        w.slots.push(likely(mask));
    }
    d.header.persistent_composite_bytes = offset;
    // Fewer initializers leave slots without a kind; more are refused 12.
    if r.often(180) {
        let keep = r.below(d.initializers.len() + 1);
        d.initializers.truncate(keep);
    }
    if r.often(12) {
        d.initializers.push(Initializer { place: r.below(12) as u8, value: r.below(2) as u8 });
    }
    if r.often(60 + reckless / 4) {
        let count = usize::from(d.header.slots) + 2;
        for _ in 0..r.between(1, 2) {
            let one = Placement { slot: r.below(count) as u16, offset: r.below(40) as u32 };
            let at = r.below(d.placements.len() + 1);
            d.placements.insert(at, one);
        }
    }
    if r.often(10) {
        d.shared.push(r.pick(&[1, 3, 129]));
    }
    w.placed = vec![false; usize::from(d.header.slots)];
    for one in &d.placements {
        if let Some(placed) = w.placed.get_mut(usize::from(one.slot)) {
            *placed = true;
        }
    }
}

pub fn world(r: &mut Random, text: Text, chunks: usize, reckless: usize) -> World {
    let float_bits_log2 = r.pick(&[6, 6, 6, 6, 5, 5, 3, 0, 9, 31]);
    let mut w = World {
        d: Description::default(),
        reckless,
        next_branches: text.next_branch,
        sizes: Sizes { float: 1u32 << float_bits_log2 >> 3, handle: u32::from(text.handle()) },
        slots: Vec::new(),
        placed: Vec::new(),
        dialogue: None,
    };
    w.d.header.float_bits_log2 = float_bits_log2;
    w.d.header.handle = text.handle();
    w.d.header.owns_bodies = r.below(2) as u8;
    w.d.header.chunks = chunks as u16;
    w.d.header.signatures = if r.often(30) { r.between(1, chunks) } else { chunks } as u16;
    if r.often(300) {
        w.d.header.entry = r.below(usize::from(w.d.header.signatures)) as u16;
    }
    if r.often(520) {
        w.dialogue = Some(bounded(r, w.sizes));
    }
    if r.often(500) {
        slots(r, &mut w);
    }
    if r.often(400) {
        for _ in 0..r.between(1, 4) {
            let native = Native { shape: shape(r, w.sizes), snapshot: r.below(2) as u8 };
            w.d.natives.push(native);
        }
    }
    for number in 0..chunks {
        let one = chunk(r, number, &w);
        w.d.chunks.push(one);
    }
    w
}

/// A site; its reply is mostly the world's.
pub fn site(r: &mut Random, w: &World, reply: Shape) -> Site {
    Site {
        yielded: shape(r, w.sizes),
        reply: if r.often(150) { bounded(r, w.sizes) } else { reply },
    }
}
