//! A description: what an exporter writes of a script, as data, as bytes and as text.
//!
//! Any value may stand in a field, also one that a call refuses: only order and lengths are kept.
//!
//! ```
//! use genduvo::description::{BlockType, Chunk, Description, Instruction, Op, ScalarKind, Shape};
//!
//! // fn main() -> bool { !false }
//! let mut chunk = Chunk::new(BlockType::FUNC).deepest(1).returns(Shape::scalar_of_unknown_width(ScalarKind::BOOL));
//! chunk.push(Instruction::new(Op::PUSH_IMMEDIATE, 0, 1, [2, 0, 0]));
//! chunk.push(Instruction::new(Op::NOT, 1, 1, [0; 3]));
//! chunk.push(Instruction::new(Op::RETURN, 0, 0, [0; 3]));
//! let mut description = Description::new();
//! description.push(chunk);
//! assert_eq!(description.to_bytes(), include_bytes!("../../../../examples/worked.bin"));
//! ```
//!
//! # Text
//!
//! [`Description::to_text`] and [`Description::from_text`] go through lines of text, for reading and writing by hand:
//!
//! ```
//! # let text = "
//! header float=6 entry=0 chunks=1 signatures=1 layout=1 slots=3 owns=0 pool=0 handle=8
//! chunk reachable=1 block=Func L=0 D=2 params=0 tags=- shapes=- returns=Scalar:Word:s8
//!   PushImmediate 7              # operands a b c; what it takes and gives is known
//!   Yield : 1 1                  # or is written behind a colon
//! site Scalar:Word:s8 Flat:Tuple:b16  # yielded and reply, behind its instruction
//!   GetTupleField flat Word
//!   Return
//! native Flat:Struct:b24 snapshot=1
//! shared 3
//! place 2 0                      # slot and offset
//! init Bool 1
//! # ";
//! # let d = genduvo::description::Description::from_text(text).unwrap();
//! # assert_eq!((d.chunks[0].code.len(), d.natives.len(), d.shared.len()), (4, 1, 1));
//! # assert_eq!((d.placements.len(), d.initializers.len()), (1, 1));
//! # assert_eq!(genduvo::description::Description::from_text(&d.to_text()), Ok(d));
//! ```
//!
//! In `header` and `chunk` every part may be left out. `chunks` and `signatures` are then as many as there are,
//! `handle` is 8, `reachable` 1, a list is empty, and all else is 0; a chunk without `returns` returns `Top:0:?`, and
//! one that says `signature=0` has no signature. What an instruction takes and gives may be left out where
//! [`Op::usual`] has it. A shape is tag, kind and width: `?` unknown, `s8` scalar, `b16` body. What has a name may be
//! written by name or by number. `#` and what follows it on its line is passed over. A line `bytes` and hexadecimal
//! numbers are bytes as they are, for what is no description ([`bytes_to_text`], [`text_to_bytes`]).

extern crate alloc;

mod bytes;
mod numbers;
mod spelling;
mod text;

pub use bytes::{Unreadable, tag};
pub use numbers::{BlockType, BodyKind, ConstValue, Op, Operands, ScalarKind, ShapeTag, TypeTag};
pub use text::{TextError, bytes_to_text, text_to_bytes};

use crate::mask::Mask;
use alloc::vec::Vec;

/// What is declared of a value.
#[derive(Debug, Clone, Copy, PartialEq, Eq, Hash, Default)]
pub struct Shape {
    /// Anything, a scalar or a body.
    pub tag: ShapeTag,
    /// The [`ScalarKind`] or the [`BodyKind`]; passed over where it can be anything.
    pub kind: u8,
    /// [`UNKNOWN`](Shape::UNKNOWN), [`SCALAR`](Shape::SCALAR) or [`BODY`](Shape::BODY).
    pub width: u8,
    /// The bytes; passed over where the width is unknown.
    pub size: u32,
}

impl Shape {
    /// The width that isn't known.
    pub const UNKNOWN: u8 = 0;
    /// The width of a scalar.
    pub const SCALAR: u8 = 1;
    /// The width of a body.
    pub const BODY: u8 = 2;

    /// Anything, of unknown width.
    pub const fn top() -> Shape {
        Shape { tag: ShapeTag::TOP, kind: 0, width: Shape::UNKNOWN, size: 0 }
    }

    /// A scalar of so many bytes.
    pub const fn scalar(kind: ScalarKind, size: u32) -> Shape {
        Shape { tag: ShapeTag::SCALAR, kind: kind.0, width: Shape::SCALAR, size }
    }

    /// A scalar.
    pub const fn scalar_of_unknown_width(kind: ScalarKind) -> Shape {
        Shape { tag: ShapeTag::SCALAR, kind: kind.0, width: Shape::UNKNOWN, size: 0 }
    }

    /// A body of so many bytes.
    pub const fn body(kind: BodyKind, size: u32) -> Shape {
        Shape { tag: ShapeTag::FLAT, kind: kind.0, width: Shape::BODY, size }
    }

    /// The kinds of value that it allows.
    pub fn mask(self) -> Mask {
        match self.tag {
            ShapeTag::SCALAR => Mask::scalar(self.kind),
            ShapeTag::FLAT => Mask::body(self.kind),
            _ => Mask::UNKNOWN,
        }
    }
}

/// A dialogue site: what goes out and what comes back.
#[derive(Debug, Clone, Copy, PartialEq, Eq, Hash, Default)]
pub struct Site {
    /// What is handed out.
    pub yielded: Shape,
    /// What is replied.
    pub reply: Shape,
}

/// An instruction.
#[derive(Debug, Clone, Copy, PartialEq, Eq, Hash, Default)]
pub struct Instruction {
    /// Which one.
    pub op: Op,
    /// How many values it takes from the stack.
    pub taken: u8,
    /// How many it leaves there.
    pub given: u8,
    /// The first operand; [`Op::operands`] says what it is.
    pub a: u32,
    /// The second operand.
    pub b: u32,
    /// The third operand.
    pub c: u32,
    /// Where it is a dialogue site; every [`Op::YIELD`] has to have one.
    pub site: Option<Site>,
}

impl Instruction {
    /// An instruction with what it takes and gives and its operands a, b and c.
    pub const fn new(op: Op, taken: u8, given: u8, operands: [u32; 3]) -> Self {
        let [a, b, c] = operands;
        Instruction { op, taken, given, a, b, c, site: None }
    }

    /// An instruction with its first operand, which takes and gives what it [always](Op::usual) does.
    pub fn usual(op: Op, a: u32) -> Option<Self> {
        let (taken, given) = op.usual()?;
        Some(Instruction::new(op, taken, given, [a, 0, 0]))
    }

    /// The same as a dialogue site.
    pub fn with_site(self, site: Site) -> Self {
        Instruction { site: Some(site), ..self }
    }
}

/// What is declared of a chunk's parameters and of what it returns.
#[derive(Debug, Clone, PartialEq, Eq, Hash, Default)]
pub struct Signature {
    /// The shapes of the parameters.
    pub params: Vec<Shape>,
    /// The shape of what it returns.
    pub result: Shape,
}

/// A chunk: a function or a stream.
#[derive(Debug, Clone, PartialEq, Eq, Hash, Default)]
pub struct Chunk {
    /// 1 where the entry can reach it, else 0.
    pub reachable: u8,
    /// What it is.
    pub block: BlockType,
    /// How many locals it has, the parameters among them: L.
    pub locals: u16,
    /// How high its stack can be: D.
    pub deepest: u16,
    /// How many parameters it has.
    pub param_count: u8,
    /// The declared types of the parameters.
    pub tags: Vec<TypeTag>,
    /// What is declared of it; `None` for a chunk past the signatures.
    pub signature: Option<Signature>,
    /// Its instructions.
    pub code: Vec<Instruction>,
}

impl Chunk {
    /// A chunk that can be reached, without locals, parameters or instructions, that returns anything.
    pub fn new(block: BlockType) -> Chunk {
        Chunk { reachable: 1, block, signature: Some(Signature::default()), ..Chunk::default() }
    }

    /// The same with so many locals; the parameters are among them.
    pub fn locals(self, locals: u16) -> Chunk {
        Chunk { locals, ..self }
    }

    /// The same with a stack of so many places at most.
    pub fn deepest(self, deepest: u16) -> Chunk {
        Chunk { deepest, ..self }
    }

    /// The same with one parameter more.
    pub fn parameter(mut self, tag: TypeTag, shape: Shape) -> Chunk {
        self.tags.push(tag);
        self.param_count = self.param_count.saturating_add(1);
        self.signature.get_or_insert_default().params.push(shape);
        self
    }

    /// The same returning this.
    pub fn returns(mut self, shape: Shape) -> Chunk {
        self.signature.get_or_insert_default().result = shape;
        self
    }

    /// Adds an instruction; answers its number.
    pub fn push(&mut self, instruction: Instruction) -> usize {
        self.code.push(instruction);
        self.code.len() - 1
    }
}

/// What is said of the whole script.
#[derive(Debug, Clone, Copy, PartialEq, Eq, Hash)]
pub struct Header {
    /// The bits of a floating-point number, as a power of 2: 6 is 64 bits.
    pub float_bits_log2: u8,
    /// The chunk that a host starts.
    pub entry: u16,
    /// How many chunks there are.
    pub chunks: u16,
    /// How many of them, from the first on, have a signature.
    pub signatures: u16,
    /// 1 where there is a data layout, else 0.
    pub layout: u8,
    /// How many data slots there are.
    pub slots: u16,
    /// 1 where the script has copies of its own of declared bodies, else 0.
    pub owns_bodies: u8,
    /// The bytes of the pool for the bodies of private data slots.
    pub persistent_composite_bytes: u32,
    /// The bytes of an opaque handle in a body: 4 or 8.
    pub handle: u8,
}

impl Default for Header {
    /// Floating-point numbers of 64 bits, handles of 8 bytes; all else 0.
    fn default() -> Header {
        Header {
            float_bits_log2: 6,
            entry: 0,
            chunks: 0,
            signatures: 0,
            layout: 0,
            slots: 0,
            owns_bodies: 0,
            persistent_composite_bytes: 0,
            handle: 8,
        }
    }
}

/// A native function.
#[derive(Debug, Clone, Copy, PartialEq, Eq, Hash, Default)]
pub struct Native {
    /// What it returns.
    pub shape: Shape,
    /// 1 where it returns a snapshot, a copy of the script's own; else 0.
    pub snapshot: u8,
}

/// Where the body of a private data slot stands in the pool.
#[derive(Debug, Clone, Copy, PartialEq, Eq, Hash, Default)]
pub struct Placement {
    /// The slot.
    pub slot: u16,
    /// The place of its first byte in the pool.
    pub offset: u32,
}

/// What a private data slot starts as.
#[derive(Debug, Clone, Copy, PartialEq, Eq, Hash, Default)]
pub struct Initializer {
    /// What it is.
    pub value: ConstValue,
    /// The value where it is a boolean, 0 or 1.
    pub bool_value: u8,
}

/// Added to the kind of a body, it is that of a shared data slot with such a body.
pub const SHARED_BODY: u8 = 128;

/// A description.
#[derive(Debug, Clone, PartialEq, Eq, Hash, Default)]
pub struct Description {
    /// What is said of the whole script.
    pub header: Header,
    /// Its chunks.
    pub chunks: Vec<Chunk>,
    /// The native functions, by number.
    pub natives: Vec<Native>,
    /// The kinds of the shared data slots, which are the first ones: a [`ScalarKind`], or a [`BodyKind`] and
    /// [`SHARED_BODY`].
    pub shared: Vec<u8>,
    /// The private data slots that hold bodies.
    pub placements: Vec<Placement>,
    /// What the private data slots start as.
    pub initializers: Vec<Initializer>,
}

impl Description {
    /// A description without chunks and data layout, for floating-point numbers of 64 bits and handles of 8 bytes.
    pub fn new() -> Description {
        Description::default()
    }

    /// Adds a chunk and answers its number; keeps the header's counts of chunks and signatures in step.
    ///
    /// # Panics
    ///
    /// Where there are 65,535 chunks already; a call takes 64.
    pub fn push(&mut self, chunk: Chunk) -> u16 {
        let number = self.chunks.len();
        self.chunks.push(chunk);
        let count = |count: usize| u16::try_from(count).expect("fewer than 65,536 chunks");
        self.header.chunks = count(self.chunks.len());
        self.header.signatures = count(self.chunks.iter().filter(|chunk| chunk.signature.is_some()).count());
        count(number)
    }
}
