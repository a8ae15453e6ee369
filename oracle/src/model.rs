//! A description as data, and its bytes. Any value may stand in a field, also
//! one that the form refuses; only the order and the lengths are kept.

use crate::description::text_to_bytes;

#[derive(Debug, Clone, Copy, PartialEq, Eq, Default)]
pub struct Shape {
    /// 0 `Top`, 1 `Scalar`, 2 `Flat`.
    pub tag: u8,
    pub kind: u8,
    /// 0 unknown, 1 scalar, 2 body.
    pub width: u8,
    pub size: u32,
}

#[derive(Debug, Clone, PartialEq, Eq)]
pub struct Header {
    pub float_bits_log2: u8,
    pub entry: u16,
    pub chunks: u16,
    pub signatures: u16,
    pub layout: u8,
    pub slots: u16,
    pub owns_bodies: u8,
    pub persistent_composite_bytes: u32,
    /// The bytes of an opaque handle in a body.
    pub handle: u8,
}

impl Default for Header {
    fn default() -> Self {
        Header {
            float_bits_log2: 0,
            entry: 0,
            chunks: 0,
            signatures: 0,
            layout: 0,
            slots: 0,
            owns_bodies: 0,
            persistent_composite_bytes: 0,
            handle: USUAL_HANDLE,
        }
    }
}

/// The bytes of a handle in types.rs, and of Surveying's new controllers.
pub const USUAL_HANDLE: u8 = 8;
pub const SHORT_HANDLE: u8 = 4;

#[derive(Debug, Clone, PartialEq, Eq, Default)]
pub struct Signature {
    pub params: Vec<Shape>,
    pub result: Shape,
}

#[derive(Debug, Clone, Copy, PartialEq, Eq, Default)]
pub struct Site {
    pub yielded: Shape,
    pub reply: Shape,
}

#[derive(Debug, Clone, Copy, PartialEq, Eq, Default)]
pub struct Instruction {
    pub op: u8,
    pub taken: u8,
    pub given: u8,
    pub a: u32,
    pub b: u32,
    pub c: u32,
    pub site: Option<Site>,
}

#[derive(Debug, Clone, PartialEq, Eq, Default)]
pub struct Chunk {
    pub reachable: u8,
    pub block: u8,
    pub locals: u16,
    pub deepest: u16,
    pub param_count: u8,
    pub tags: Vec<u8>,
    /// None for a chunk past the signatures.
    pub signature: Option<Signature>,
    pub code: Vec<Instruction>,
}

#[derive(Debug, Clone, Copy, PartialEq, Eq, Default)]
pub struct Native {
    pub shape: Shape,
    pub snapshot: u8,
}

#[derive(Debug, Clone, Copy, PartialEq, Eq, Default)]
pub struct Placement {
    pub slot: u16,
    pub offset: u32,
}

#[derive(Debug, Clone, Copy, PartialEq, Eq, Default)]
pub struct Initializer {
    pub place: u8,
    pub value: u8,
}

#[derive(Debug, Clone, PartialEq, Eq, Default)]
pub struct Description {
    pub header: Header,
    pub chunks: Vec<Chunk>,
    pub natives: Vec<Native>,
    pub shared: Vec<u8>,
    pub placements: Vec<Placement>,
    pub initializers: Vec<Initializer>,
}

impl Instruction {
    pub fn new(op: u8, taken: u8, given: u8, a: u32, b: u32, c: u32) -> Self {
        Instruction { op, taken, given, a, b, c, site: None }
    }
}

impl Chunk {
    pub fn params(&self) -> usize {
        self.signature.as_ref().map_or(0, |signature| signature.params.len())
    }
}

impl Description {
    /// W: the words that a workspace needs, less the queue.
    pub fn least_words(&self) -> u64 {
        let chunks: u64 = self
            .chunks
            .iter()
            .map(|chunk| {
                chunk.code.len() as u64 * (u64::from(chunk.locals) + u64::from(chunk.deepest) + 6)
                    + chunk.params() as u64
                    + 2
            })
            .sum();
        16 * (chunks + u64::from(self.header.slots) + 4)
    }

    pub fn encode(&self) -> Vec<u8> {
        let mut out = Vec::new();
        field(&mut out, 1, |out| {
            let h = &self.header;
            out.push(h.float_bits_log2);
            put16(out, h.entry);
            put16(out, h.chunks);
            put16(out, h.signatures);
            out.push(h.layout);
            put16(out, h.slots);
            out.push(h.owns_bodies);
            put32(out, h.persistent_composite_bytes);
            out.push(h.handle);
        });
        for chunk in &self.chunks {
            field(&mut out, 2, |out| {
                out.extend([chunk.reachable, chunk.block]);
                put16(out, chunk.locals);
                put16(out, chunk.deepest);
                out.extend([chunk.param_count, chunk.tags.len() as u8]);
                out.extend(&chunk.tags);
                if let Some(signature) = &chunk.signature {
                    out.push(signature.params.len() as u8);
                    for shape in &signature.params {
                        put_shape(out, shape);
                    }
                    put_shape(out, &signature.result);
                }
            });
            for i in &chunk.code {
                field(&mut out, 3, |out| {
                    out.extend([i.op, i.taken, i.given]);
                    put32(out, i.a);
                    put32(out, i.b);
                    put32(out, i.c);
                });
                if let Some(site) = &i.site {
                    field(&mut out, 4, |out| {
                        put_shape(out, &site.yielded);
                        put_shape(out, &site.reply);
                    });
                }
            }
        }
        for native in &self.natives {
            field(&mut out, 5, |out| {
                put_shape(out, &native.shape);
                out.push(native.snapshot);
            });
        }
        for kind in &self.shared {
            field(&mut out, 6, |out| out.push(*kind));
        }
        for placement in &self.placements {
            field(&mut out, 7, |out| {
                put16(out, placement.slot);
                put32(out, placement.offset);
            });
        }
        for initializer in &self.initializers {
            field(&mut out, 8, |out| out.extend([initializer.place, initializer.value]));
        }
        out
    }

    /// What a text says (bindings/rust, module `description`).
    pub fn from_text(text: &str) -> Result<Description, String> {
        let bytes = text_to_bytes(text).map_err(|error| error.to_string())?;
        Description::decode(&bytes).ok_or("signatures that don't fit the chunks".into())
    }

    /// None where order or lengths are not those of a description. Whatever
    /// is answered encodes to the same bytes.
    pub fn decode(bytes: &[u8]) -> Option<Description> {
        let mut d = Description::default();
        let mut rest = bytes;
        let mut last = 0;
        while !rest.is_empty() {
            let (tag, contents, after) = split_field(rest)?;
            rest = after;
            let mut take = Take(contents);
            match tag {
                1 if last == 0 => {
                    d.header = Header {
                        float_bits_log2: take.u8()?,
                        entry: take.u16()?,
                        chunks: take.u16()?,
                        signatures: take.u16()?,
                        layout: take.u8()?,
                        slots: take.u16()?,
                        owns_bodies: take.u8()?,
                        persistent_composite_bytes: take.u32()?,
                        handle: take.u8()?,
                    }
                }
                2 if (1..=4).contains(&last) => {
                    let mut chunk = Chunk {
                        reachable: take.u8()?,
                        block: take.u8()?,
                        locals: take.u16()?,
                        deepest: take.u16()?,
                        param_count: take.u8()?,
                        ..Chunk::default()
                    };
                    for _ in 0..take.u8()? {
                        chunk.tags.push(take.u8()?);
                    }
                    if d.chunks.len() < usize::from(d.header.signatures) {
                        let mut signature = Signature::default();
                        for _ in 0..take.u8()? {
                            signature.params.push(take.shape()?);
                        }
                        signature.result = take.shape()?;
                        chunk.signature = Some(signature);
                    }
                    d.chunks.push(chunk);
                }
                3 if (2..=4).contains(&last) => {
                    let i = Instruction::new(
                        take.u8()?, take.u8()?, take.u8()?, take.u32()?, take.u32()?, take.u32()?,
                    );
                    d.chunks.last_mut()?.code.push(i);
                }
                4 if last == 3 => {
                    let site = Site { yielded: take.shape()?, reply: take.shape()? };
                    d.chunks.last_mut()?.code.last_mut()?.site = Some(site);
                }
                5 if (1..=5).contains(&last) => {
                    d.natives.push(Native { shape: take.shape()?, snapshot: take.u8()? })
                }
                6 if (1..=6).contains(&last) => d.shared.push(take.u8()?),
                7 if (1..=7).contains(&last) => {
                    d.placements.push(Placement { slot: take.u16()?, offset: take.u32()? })
                }
                8 if (1..=8).contains(&last) => {
                    d.initializers.push(Initializer { place: take.u8()?, value: take.u8()? })
                }
                _ => return None,
            }
            if !take.0.is_empty() {
                return None;
            }
            last = tag;
        }
        (last != 0).then_some(d)
    }
}

/// Tag, contents and what follows; None where no whole field is left.
pub fn split_field(bytes: &[u8]) -> Option<(u8, &[u8], &[u8])> {
    let length = usize::from(u16::from_le_bytes([*bytes.get(1)?, *bytes.get(2)?]));
    let contents = bytes.get(3..3 + length)?;
    Some((bytes[0], contents, &bytes[3 + length..]))
}

pub fn at16(bytes: &[u8], at: usize) -> u16 {
    u16::from_le_bytes([bytes[at], bytes[at + 1]])
}
pub fn put16(out: &mut Vec<u8>, value: u16) {
    out.extend(value.to_le_bytes());
}
pub fn put32(out: &mut Vec<u8>, value: u32) {
    out.extend(value.to_le_bytes());
}
pub fn field(out: &mut Vec<u8>, tag: u8, contents: impl FnOnce(&mut Vec<u8>)) {
    out.extend([tag, 0, 0]);
    let start = out.len();
    contents(out);
    let length = u16::try_from(out.len() - start).expect("a field's length fits");
    out[start - 2..start].copy_from_slice(&length.to_le_bytes());
}
fn put_shape(out: &mut Vec<u8>, shape: &Shape) {
    out.extend([shape.tag, shape.kind, shape.width]);
    put32(out, shape.size);
}

/// Takes numbers off the front of a field's contents.
pub struct Take<'a>(pub &'a [u8]);
impl Take<'_> {
    pub fn u8(&mut self) -> Option<u8> {
        let (first, rest) = self.0.split_first()?;
        self.0 = rest;
        Some(*first)
    }
    pub fn u16(&mut self) -> Option<u16> {
        Some(u16::from_le_bytes([self.u8()?, self.u8()?]))
    }
    pub fn u32(&mut self) -> Option<u32> {
        let low = u32::from(self.u16()?);
        Some(low | u32::from(self.u16()?) << 16)
    }
    pub fn shape(&mut self) -> Option<Shape> {
        Some(Shape { tag: self.u8()?, kind: self.u8()?, width: self.u8()?, size: self.u32()? })
    }
}
