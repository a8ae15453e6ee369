//! Stand-in for the crate `keleusma`: the declarations that vendor/types.rs
//! names, in the order of bytecode.rs, and a depth effect taken from the
//! description.
//!
//! Added beside what bytecode.rs has: `Chunk::deepest_stack`, `Chunk::told`
//! and the module `told`, which carry the description's values to the
//! functions that types.rs calls.

pub mod value_layout {
    #[derive(Debug, Clone, Copy, PartialEq, Eq)]
    pub enum CompositeKind {
        Tuple,
        Array,
        Struct,
        Enum,
    }
    impl CompositeKind {
        pub fn to_tag(self) -> u8 {
            self as u8
        }
    }
    /// Any byte: a description may have scalar kinds up to 255.
    #[derive(Debug, Clone, Copy, PartialEq, Eq)]
    pub struct ScalarKind(pub u8);
    impl ScalarKind {
        pub fn to_tag(self) -> u8 {
            self.0
        }
    }
}

pub mod bytecode {
    use crate::value_layout::{CompositeKind, ScalarKind};

    #[derive(Debug, Clone, PartialEq)]
    pub enum ConstValue {
        Unit,
        Bool(bool),
        Int(i64),
        Byte(u8),
        Fixed(i64),
        Float(f64),
        StaticStr(String),
        Tuple(Vec<ConstValue>),
        Array(Vec<ConstValue>),
        Struct { type_name: String },
        Enum { type_name: String },
        None,
    }

    #[derive(Debug, Clone, Copy, PartialEq, Eq)]
    pub enum BlockType {
        Func,
        Reentrant,
        Stream,
    }

    #[derive(Debug, Clone, Copy, PartialEq, Eq)]
    pub enum TypeTag {
        Composite,
        Byte,
        Word,
        Fixed,
        Float,
        Bool,
        Unit,
        Text,
    }

    #[derive(Debug, Clone, Copy, PartialEq, Eq)]
    pub enum TupleField {
        Flat { kind: ScalarKind },
        FlatNested { size: u16, variant: CompositeKind },
        Boxed,
    }
    #[derive(Debug, Clone, Copy, PartialEq, Eq)]
    pub enum StructField {
        Flat { kind: ScalarKind },
        FlatNested { size: u16, variant: CompositeKind },
        Boxed,
    }
    #[derive(Debug, Clone, Copy, PartialEq, Eq)]
    pub enum EnumField {
        Flat { kind: ScalarKind },
        FlatNested { size: u16, variant: CompositeKind },
        Boxed,
    }
    #[derive(Debug, Clone, Copy, PartialEq, Eq)]
    pub enum ArrayElem {
        Flat { kind: ScalarKind },
        FlatNested { size: u16, variant: CompositeKind },
        Boxed,
    }

    #[derive(Debug, Clone, Copy, PartialEq, Eq)]
    pub enum NewCompositeOperand {
        Flat { kind: CompositeKind, byte_size: u16 },
        Boxed { kind: CompositeKind },
    }
    impl NewCompositeOperand {
        pub fn kind(&self) -> CompositeKind {
            match self {
                Self::Flat { kind, .. } | Self::Boxed { kind } => *kind,
            }
        }
    }

    #[derive(Debug, Clone, Copy, PartialEq)]
    pub enum Op {
        Const(u16),
        GetLocal(u16),
        SetLocal(u16),
        GetData(u32),
        SetData(u32),
        GetDataIndexed(u32, u32),
        SetDataIndexed(u32, u32),
        BoundsCheck(u16),
        Add,
        Sub,
        Mul,
        Div,
        Mod,
        Neg,
        CmpEq,
        CmpNe,
        CmpLt,
        CmpGt,
        CmpLe,
        CmpGe,
        Not,
        If(u16),
        Else(u16),
        EndIf,
        Loop(u16),
        EndLoop(u16),
        Break(u16),
        BreakIf(u16),
        Stream,
        Reset,
        Call(u16, u8),
        Return,
        Yield,
        Dup,
        NewComposite(NewCompositeOperand),
        GetField(StructField),
        GetIndex(ArrayElem),
        GetTupleField(TupleField),
        GetEnumField(EnumField),
        Len,
        IsEnum(u16, u16, u16),
        IsStruct(u16),
        IntToFloat,
        FloatToInt,
        WordToByte,
        ByteToWord,
        WordToFixed(u8),
        FixedToWord(u8),
        FixedMul(u8),
        FixedDiv(u8),
        Trap(u16),
        CheckedAdd,
        CheckedSub,
        CheckedMul(u8),
        CheckedNeg,
        CheckedDiv(u8),
        CheckedMod,
        PushImmediate(u8),
        PopN(u8),
        BitAnd,
        BitOr,
        BitXor,
        Shl,
        Shr,
        CallVerifiedNative(u16, u8),
        CallExternalNative(u16, u8),
    }

    #[derive(Debug, Clone, Copy, PartialEq, Eq)]
    pub enum WireShape {
        Top,
        Scalar { kind: u8 },
        Flat { kind: u8, size: u32 },
    }

    #[derive(Debug, Clone)]
    pub struct ChunkSignature {
        pub params: Vec<WireShape>,
        pub ret: WireShape,
    }

    #[derive(Debug, Clone)]
    pub struct DataSlot;

    #[derive(Debug, Clone)]
    pub struct SharedSlotLayout {
        pub kind: u8,
    }

    pub const SHARED_SLOT_COMPOSITE_FLAG: u8 = 0x80;

    #[derive(Debug, Clone)]
    pub struct PrivateCompositeSlot {
        pub slot: u16,
        pub offset: u32,
    }

    #[derive(Debug, Clone)]
    pub struct DataLayout {
        pub slots: Vec<DataSlot>,
        pub shared_layout: Vec<SharedSlotLayout>,
        pub private_composite_layout: Vec<PrivateCompositeSlot>,
        pub private_init: Vec<ConstValue>,
    }

    #[derive(Debug, Clone)]
    pub struct Chunk {
        pub name: String,
        pub ops: Vec<Op>,
        pub constants: Vec<ConstValue>,
        pub local_count: u16,
        pub param_count: u8,
        pub block_type: BlockType,
        pub param_types: Vec<TypeTag>,
        /// D of the description.
        pub deepest_stack: usize,
        /// This chunk's number.
        pub number: usize,
        /// What the description says of each instruction.
        pub told: Vec<crate::told::Told>,
    }

    #[derive(Debug, Clone)]
    pub struct Module {
        pub chunks: Vec<Chunk>,
        pub signatures: Vec<ChunkSignature>,
        pub native_return_shapes: Vec<WireShape>,
        pub data_layout: Option<DataLayout>,
        pub float_bits_log2: u8,
        pub persistent_composite_bytes: u32,
    }
}

/// The way by which the description's values reach the functions that
/// types.rs calls. A shape is copied on its way through types.rs and a scalar
/// one has no room for a width, so the width is found by the turn of the call:
/// before the first taking by counting, afterwards by the instruction at work.
pub mod told {
    use crate::bytecode::{Chunk, Op, WireShape};
    use std::cell::{Cell, RefCell};

    #[derive(Debug, Clone, Copy, PartialEq, Eq)]
    pub enum ToldWidth {
        Unknown,
        Scalar(u32),
        Body(u32),
    }
    #[derive(Debug, Clone, Copy, PartialEq, Eq)]
    pub struct ToldShape {
        pub shape: WireShape,
        pub width: ToldWidth,
    }
    /// One instruction: taken, given, a `Const`'s site size, and the shape
    /// whose width the instruction asks for (a reply's or a native's).
    #[derive(Debug, Clone, Copy)]
    pub struct Told {
        pub taken: u8,
        pub given: u8,
        pub site_size: Option<u32>,
        pub shape: Option<ToldShape>,
    }

    thread_local! {
        static TAKINGS: Cell<u64> = const { Cell::new(0) };
        static AT: Cell<Option<(usize, usize)>> = const { Cell::new(None) };
        static SHAPE: Cell<Option<ToldShape>> = const { Cell::new(None) };
        static ASKED: Cell<usize> = const { Cell::new(0) };
        static DECLARED: RefCell<Vec<ToldShape>> = const { RefCell::new(Vec::new()) };
    }

    /// Before each run: the declared shapes in the order in which `check`
    /// asks for their widths.
    pub fn begin(declared: &[ToldShape]) {
        TAKINGS.set(0);
        AT.set(None);
        SHAPE.set(None);
        ASKED.set(0);
        DECLARED.with_borrow_mut(|all| {
            all.clear();
            all.extend_from_slice(declared);
        });
    }
    /// Entries taken so far.
    pub fn takings() -> u64 {
        TAKINGS.get()
    }
    /// Chunk and instruction of the last entry taken.
    pub fn at() -> Option<(usize, usize)> {
        AT.get()
    }
    pub fn place(op: &Op, chunk: &Chunk) -> usize {
        let from = chunk.ops.as_ptr() as usize;
        let place = (op as *const Op as usize - from) / size_of::<Op>();
        assert!(place < chunk.ops.len(), "an instruction of its chunk");
        place
    }
    pub fn take(op: &Op, chunk: &Chunk) -> Told {
        let place = place(op, chunk);
        let told = chunk.told[place];
        TAKINGS.set(TAKINGS.get() + 1);
        AT.set(Some((chunk.number, place)));
        SHAPE.set(told.shape);
        told
    }
    pub fn width(shape: &WireShape) -> ToldWidth {
        let told = if AT.get().is_none() {
            let turn = ASKED.get();
            ASKED.set(turn + 1);
            DECLARED.with_borrow(|all| all[turn])
        } else {
            SHAPE.get().expect("an instruction that asks for a width")
        };
        assert_eq!(told.shape, *shape, "the shape whose turn it is");
        told.width
    }
}

pub mod verify {
    use crate::bytecode::{Chunk, Op};

    /// What the instruction takes, and what it gives less what it takes.
    pub fn op_depth_effect(op: &Op, chunk: &Chunk) -> (u32, i32) {
        let told = crate::told::take(op, chunk);
        (u32::from(told.taken), i32::from(told.given) - i32::from(told.taken))
    }
}
