//! A description's bytes.

use super::alloc::vec::Vec;
use super::{
    BlockType, Chunk, ConstValue, Description, Header, Initializer, Instruction, Native, Op, Placement, Shape,
    ShapeTag, Signature, Site, TypeTag,
};
use core::fmt;

/// The bytes of a field before its contents: tag and length.
const HEAD: usize = 3;

/// The tags of a description's fields, in their order; instructions and their sites follow each chunk.
pub mod tag {
    /// What is said of the whole script; first, once.
    pub const HEADER: u8 = 1;
    /// A chunk.
    pub const CHUNK: u8 = 2;
    /// An instruction of the last chunk.
    pub const INSTRUCTION: u8 = 3;
    /// The site of the last instruction.
    pub const SITE: u8 = 4;
    /// A native function.
    pub const NATIVE: u8 = 5;
    /// A shared data slot.
    pub const SHARED: u8 = 6;
    /// The place of a private data slot's body.
    pub const PLACEMENT: u8 = 7;
    /// What a private data slot starts as.
    pub const INITIALIZER: u8 = 8;
}

// ---- writing ----

/// Writes numbers, the low byte first.
#[derive(Default)]
struct Put(Vec<u8>);

impl Put {
    fn u8(&mut self, number: u8) -> &mut Self {
        self.0.push(number);
        self
    }

    fn u16(&mut self, number: u16) -> &mut Self {
        self.0.extend(number.to_le_bytes());
        self
    }

    fn u32(&mut self, number: u32) -> &mut Self {
        self.0.extend(number.to_le_bytes());
        self
    }

    fn shape(&mut self, shape: Shape) -> &mut Self {
        self.u8(shape.tag.0).u8(shape.kind).u8(shape.width).u32(shape.size)
    }

    /// The count of a list.
    fn count(&mut self, length: usize) -> &mut Self {
        self.u8(u8::try_from(length).expect("a list of 255 at most"))
    }

    fn field(&mut self, tag: u8, contents: impl FnOnce(&mut Self)) {
        self.u8(tag).u16(0);
        let start = self.0.len();
        contents(self);
        let length = u16::try_from(self.0.len() - start).expect("lists of 255 at most fit in a field");
        self.0[start - 2..start].copy_from_slice(&length.to_le_bytes());
    }

    fn header(&mut self, header: &Header) {
        self.u8(header.float_bits_log2)
            .u16(header.entry)
            .u16(header.chunks)
            .u16(header.signatures)
            .u8(header.layout)
            .u16(header.slots)
            .u8(header.owns_bodies)
            .u32(header.persistent_composite_bytes)
            .u8(header.handle);
    }

    fn chunk(&mut self, chunk: &Chunk) {
        self.u8(chunk.reachable).u8(chunk.block.0).u16(chunk.locals).u16(chunk.deepest).u8(chunk.param_count);
        self.count(chunk.tags.len());
        self.0.extend(chunk.tags.iter().map(|tag| tag.0));
        if let Some(signature) = &chunk.signature {
            self.count(signature.params.len());
            signature.params.iter().for_each(|shape| {
                self.shape(*shape);
            });
            self.shape(signature.result);
        }
    }

    fn instruction(&mut self, i: &Instruction) {
        self.field(tag::INSTRUCTION, |put| {
            put.u8(i.op.0).u8(i.taken).u8(i.given).u32(i.a).u32(i.b).u32(i.c);
        });
        if let Some(site) = i.site {
            self.field(tag::SITE, |put| {
                put.shape(site.yielded).shape(site.reply);
            });
        }
    }

    /// The fields behind the chunks.
    fn data(&mut self, description: &Description) {
        for native in &description.natives {
            self.field(tag::NATIVE, |put| {
                put.shape(native.shape).u8(native.snapshot);
            });
        }
        for kind in &description.shared {
            self.field(tag::SHARED, |put| {
                put.u8(*kind);
            });
        }
        for placement in &description.placements {
            self.field(tag::PLACEMENT, |put| {
                put.u16(placement.slot).u32(placement.offset);
            });
        }
        for initializer in &description.initializers {
            self.field(tag::INITIALIZER, |put| {
                put.u8(initializer.value.0).u8(initializer.bool_value);
            });
        }
    }
}

// ---- reading ----

/// Bytes that aren't those of a description.
#[derive(Debug, Clone, Copy, PartialEq, Eq, Hash)]
pub struct Unreadable {
    /// The place of the first byte of the field at fault.
    pub at: usize,
    /// What is wrong there.
    pub what: &'static str,
}

impl fmt::Display for Unreadable {
    fn fmt(&self, f: &mut fmt::Formatter<'_>) -> fmt::Result {
        write!(f, "no description: at byte {}: {}", self.at, self.what)
    }
}

impl core::error::Error for Unreadable {}

/// Takes numbers off the front of a field's contents.
struct Take<'a>(&'a [u8]);

impl Take<'_> {
    fn bytes<const N: usize>(&mut self) -> Option<[u8; N]> {
        let (first, rest) = self.0.split_first_chunk()?;
        self.0 = rest;
        Some(*first)
    }

    fn u8(&mut self) -> Option<u8> {
        self.bytes().map(u8::from_le_bytes)
    }

    fn u16(&mut self) -> Option<u16> {
        self.bytes().map(u16::from_le_bytes)
    }

    fn u32(&mut self) -> Option<u32> {
        self.bytes().map(u32::from_le_bytes)
    }

    fn shape(&mut self) -> Option<Shape> {
        Some(Shape { tag: ShapeTag(self.u8()?), kind: self.u8()?, width: self.u8()?, size: self.u32()? })
    }

    fn header(&mut self) -> Option<Header> {
        Some(Header {
            float_bits_log2: self.u8()?,
            entry: self.u16()?,
            chunks: self.u16()?,
            signatures: self.u16()?,
            layout: self.u8()?,
            slots: self.u16()?,
            owns_bodies: self.u8()?,
            persistent_composite_bytes: self.u32()?,
            handle: self.u8()?,
        })
    }

    fn chunk(&mut self, has_signature: bool) -> Option<Chunk> {
        let mut chunk = Chunk {
            reachable: self.u8()?,
            block: BlockType(self.u8()?),
            locals: self.u16()?,
            deepest: self.u16()?,
            param_count: self.u8()?,
            ..Chunk::default()
        };
        chunk.tags = (0..self.u8()?).map(|_| self.u8().map(TypeTag)).collect::<Option<_>>()?;
        if has_signature {
            let params = (0..self.u8()?).map(|_| self.shape()).collect::<Option<_>>()?;
            chunk.signature = Some(Signature { params, result: self.shape()? });
        }
        Some(chunk)
    }

    fn instruction(&mut self) -> Option<Instruction> {
        let (op, taken, given) = (Op(self.u8()?), self.u8()?, self.u8()?);
        Some(Instruction::new(op, taken, given, [self.u32()?, self.u32()?, self.u32()?]))
    }
}

/// Whether a field of this tag may follow one of the last tag, which is 0 before the first.
fn follows(tag: u8, last: u8) -> bool {
    match tag {
        tag::HEADER => last == 0,
        tag::CHUNK => (tag::HEADER..=tag::SITE).contains(&last),
        tag::INSTRUCTION => (tag::CHUNK..=tag::SITE).contains(&last),
        tag::SITE => last == tag::INSTRUCTION,
        tag::NATIVE..=tag::INITIALIZER => (tag::HEADER..=tag).contains(&last),
        _ => false,
    }
}

/// Adds a field to a description; `None` where it is too short.
fn add(description: &mut Description, tag: u8, take: &mut Take<'_>) -> Option<()> {
    match tag {
        tag::HEADER => description.header = take.header()?,
        tag::CHUNK => {
            let has_signature = description.chunks.len() < usize::from(description.header.signatures);
            description.chunks.push(take.chunk(has_signature)?);
        }
        tag::INSTRUCTION => description.chunks.last_mut()?.code.push(take.instruction()?),
        tag::SITE => {
            let site = Site { yielded: take.shape()?, reply: take.shape()? };
            description.chunks.last_mut()?.code.last_mut()?.site = Some(site);
        }
        tag::NATIVE => description.natives.push(Native { shape: take.shape()?, snapshot: take.u8()? }),
        tag::SHARED => description.shared.push(take.u8()?),
        tag::PLACEMENT => description.placements.push(Placement { slot: take.u16()?, offset: take.u32()? }),
        _ => {
            let (value, bool_value) = (ConstValue(take.u8()?), take.u8()?);
            description.initializers.push(Initializer { value, bool_value });
        }
    }
    Some(())
}

/// Tag, contents and what follows the first field; `None` where no whole one is there.
fn split(bytes: &[u8]) -> Option<(u8, &[u8], &[u8])> {
    let length = u16::from_le_bytes(*bytes.get(1..)?.first_chunk()?);
    let (contents, rest) = bytes.get(HEAD..)?.split_at_checked(length.into())?;
    Some((*bytes.first()?, contents, rest))
}

impl Description {
    /// Its bytes. No field is looked at: whatever stands there is written.
    ///
    /// # Panics
    ///
    /// Where a chunk has more than 255 type tags or parameter shapes, whose number doesn't fit; a call takes 16.
    pub fn to_bytes(&self) -> Vec<u8> {
        let mut put = Put::default();
        put.field(tag::HEADER, |put| put.header(&self.header));
        for chunk in &self.chunks {
            put.field(tag::CHUNK, |put| put.chunk(chunk));
            chunk.code.iter().for_each(|instruction| put.instruction(instruction));
        }
        put.data(self);
        put.0
    }

    /// The description with these bytes. Order and lengths of the fields are those of a description; nothing else is
    /// looked at. What is read [writes](Description::to_bytes) the same bytes.
    pub fn from_bytes(bytes: &[u8]) -> Result<Description, Unreadable> {
        let mut description = Description::new();
        let (mut rest, mut last) = (bytes, 0);
        while !rest.is_empty() || last == 0 {
            let unreadable = |what| Unreadable { at: bytes.len() - rest.len(), what };
            let (tag, contents, after) = split(rest).ok_or(unreadable("no whole field is left"))?;
            if !follows(tag, last) {
                return Err(unreadable("a field of this tag can't stand here"));
            }
            let mut take = Take(contents);
            add(&mut description, tag, &mut take).ok_or(unreadable("the field is too short"))?;
            if !take.0.is_empty() {
                return Err(unreadable("the field is too long"));
            }
            (rest, last) = (after, tag);
        }
        Ok(description)
    }
}
