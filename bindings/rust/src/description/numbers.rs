//! The numbers of a description that have names.

use core::fmt;
use core::ops::RangeInclusive;

/// Makes a number with names: a constant, a place and a name in texts for each.
macro_rules! numbered {
    (
        $(#[$about:meta])*
        $type:ident, $count:literal:
        $($constant:ident = $number:literal, $name:literal, $what:literal;)*
    ) => {
        $(#[$about])*
        #[derive(Debug, Clone, Copy, PartialEq, Eq, PartialOrd, Ord, Hash, Default)]
        pub struct $type(pub u8);

        impl $type {
            $(
                #[doc = concat!("`", $name, "`, ", stringify!($number), ": ", $what, ".")]
                pub const $constant: $type = $type($number);
            )*

            /// How many have a name.
            pub const COUNT: usize = $count;

            /// All that have a name, rising.
            pub const ALL: [$type; $count] = [$($type::$constant),*];

            /// Their names, by number.
            pub const NAMES: [&'static str; $count] = [$($name),*];

            /// Its name; `None` where the number has no meaning.
            pub fn name(self) -> Option<&'static str> {
                Self::NAMES.get(usize::from(self.0)).copied()
            }

            /// The one of this name.
            pub fn from_name(name: &str) -> Option<Self> {
                let place = Self::NAMES.iter().position(|other| *other == name)?;
                Self::ALL.get(place).copied()
            }
        }

        impl fmt::Display for $type {
            fn fmt(&self, f: &mut fmt::Formatter<'_>) -> fmt::Result {
                match self.name() {
                    Some(name) => f.write_str(name),
                    None => write!(f, "{}", self.0),
                }
            }
        }
    };
}

numbered! {
    /// An instruction of the Keleusma machine.
    Op, 66:
    CONST = 0, "Const", "push a constant";
    GET_LOCAL = 1, "GetLocal", "push a local";
    SET_LOCAL = 2, "SetLocal", "pop into a local";
    GET_DATA = 3, "GetData", "push a data slot";
    SET_DATA = 4, "SetData", "pop into a data slot";
    GET_DATA_INDEXED = 5, "GetDataIndexed", "read one of several data slots";
    SET_DATA_INDEXED = 6, "SetDataIndexed", "write one of several data slots";
    BOUNDS_CHECK = 7, "BoundsCheck", "test an index";
    ADD = 8, "Add", "add bytes, fixed-point or floating-point numbers";
    SUB = 9, "Sub", "subtract them";
    MUL = 10, "Mul", "multiply them";
    DIV = 11, "Div", "divide: low, high and flag";
    MOD = 12, "Mod", "remainder: low, high and flag";
    NEG = 13, "Neg", "negate a byte, a fixed-point or a floating-point number";
    CMP_EQ = 14, "CmpEq", "equal";
    CMP_NE = 15, "CmpNe", "not equal";
    CMP_LT = 16, "CmpLt", "less";
    CMP_GT = 17, "CmpGt", "greater";
    CMP_LE = 18, "CmpLe", "less or equal";
    CMP_GE = 19, "CmpGe", "greater or equal";
    NOT = 20, "Not", "negate a boolean";
    IF = 21, "If", "pop a condition; jump where it is false";
    ELSE = 22, "Else", "jump past the other arm";
    END_IF = 23, "EndIf", "the end of both arms";
    LOOP = 24, "Loop", "the start of a loop";
    END_LOOP = 25, "EndLoop", "jump back";
    BREAK = 26, "Break", "jump out of a loop";
    BREAK_IF = 27, "BreakIf", "pop a condition; jump out of a loop where it is true";
    STREAM = 28, "Stream", "the start of a stream";
    RESET = 29, "Reset", "forget stack and locals and begin again at instruction 1";
    CALL = 30, "Call", "call a chunk";
    RETURN = 31, "Return", "return the top of the stack";
    YIELD = 32, "Yield", "hand out a value and wait for a reply";
    DUP = 33, "Dup", "double the top of the stack";
    NEW_COMPOSITE = 34, "NewComposite", "make a body of what is popped";
    GET_FIELD = 35, "GetField", "read a field of a struct";
    GET_INDEX = 36, "GetIndex", "read an element of an array";
    GET_TUPLE_FIELD = 37, "GetTupleField", "read a part of a tuple";
    GET_ENUM_FIELD = 38, "GetEnumField", "read a field of an enum";
    LEN = 39, "Len", "the length of a body; no rule proves it";
    IS_ENUM = 40, "IsEnum", "whether the top is a certain enum; it stays";
    IS_STRUCT = 41, "IsStruct", "whether the top is a certain struct; it stays";
    INT_TO_FLOAT = 42, "IntToFloat", "a word as a floating-point number";
    FLOAT_TO_INT = 43, "FloatToInt", "a floating-point number as a word";
    WORD_TO_BYTE = 44, "WordToByte", "a word as a byte";
    BYTE_TO_WORD = 45, "ByteToWord", "a byte as a word";
    WORD_TO_FIXED = 46, "WordToFixed", "a word as a fixed-point number";
    FIXED_TO_WORD = 47, "FixedToWord", "a fixed-point number as a word";
    FIXED_MUL = 48, "FixedMul", "multiply fixed-point numbers";
    FIXED_DIV = 49, "FixedDiv", "divide fixed-point numbers: low, high and flag";
    TRAP = 50, "Trap", "stop with an error";
    CHECKED_ADD = 51, "CheckedAdd", "add: low, high and flag";
    CHECKED_SUB = 52, "CheckedSub", "subtract: low, high and flag";
    CHECKED_MUL = 53, "CheckedMul", "multiply: low, high and flag";
    CHECKED_NEG = 54, "CheckedNeg", "negate: low, high and flag";
    CHECKED_DIV = 55, "CheckedDiv", "divide: low, high and flag";
    CHECKED_MOD = 56, "CheckedMod", "remainder: low, high and flag";
    PUSH_IMMEDIATE = 57, "PushImmediate", "push unit (0), true (1), false (2), none (3) or a word (4 to 19)";
    POP_N = 58, "PopN", "drop what is taken";
    BIT_AND = 59, "BitAnd", "the bits of both";
    BIT_OR = 60, "BitOr", "the bits of either";
    BIT_XOR = 61, "BitXor", "the bits of one alone";
    SHL = 62, "Shl", "shift left";
    SHR = 63, "Shr", "shift right";
    CALL_VERIFIED_NATIVE = 64, "CallVerifiedNative", "call a native function with known bounds";
    CALL_EXTERNAL_NATIVE = 65, "CallExternalNative", "call another native function";
}

numbered! {
    /// What a chunk is.
    BlockType, 3:
    FUNC = 0, "Func", "a function";
    REENTRANT = 1, "Reentrant", "a function that can be suspended";
    STREAM = 2, "Stream", "a stream";
}

numbered! {
    /// The declared type of a parameter.
    TypeTag, 8:
    COMPOSITE = 0, "Composite", "a body";
    BYTE = 1, "Byte", "a byte";
    WORD = 2, "Word", "a word";
    FIXED = 3, "Fixed", "a fixed-point number";
    FLOAT = 4, "Float", "a floating-point number";
    BOOL = 5, "Bool", "a boolean";
    UNIT = 6, "Unit", "the unit value";
    TEXT = 7, "Text", "a text";
}

numbered! {
    /// What a constant is.
    ConstValue, 12:
    UNIT = 0, "Unit", "the unit value";
    BOOL = 1, "Bool", "a boolean";
    INT = 2, "Int", "a word";
    BYTE = 3, "Byte", "a byte";
    FIXED = 4, "Fixed", "a fixed-point number";
    FLOAT = 5, "Float", "a floating-point number";
    STATIC_STR = 6, "StaticStr", "a text";
    TUPLE = 7, "Tuple", "a tuple";
    ARRAY = 8, "Array", "an array";
    STRUCT = 9, "Struct", "a struct";
    ENUM = 10, "Enum", "an enum";
    NONE = 11, "None", "the none value";
}

numbered! {
    /// What a shape is.
    ShapeTag, 3:
    TOP = 0, "Top", "anything";
    SCALAR = 1, "Scalar", "a scalar";
    FLAT = 2, "Flat", "a body";
}

numbered! {
    /// The kind of a scalar.
    ScalarKind, 8:
    UNIT = 0, "Unit", "the unit value";
    BOOL = 1, "Bool", "a boolean";
    BYTE = 2, "Byte", "a byte";
    WORD = 3, "Word", "a word";
    FIXED = 4, "Fixed", "a fixed-point number";
    FLOAT = 5, "Float", "a floating-point number";
    TEXT = 6, "Text", "a text";
    OPAQUE = 7, "Opaque", "an opaque handle";
}

numbered! {
    /// The kind of a body.
    BodyKind, 4:
    TUPLE = 0, "Tuple", "a tuple";
    ARRAY = 1, "Array", "an array";
    STRUCT = 2, "Struct", "a struct";
    ENUM = 3, "Enum", "an enum";
}

/// What the operands a, b and c of an instruction are; those that aren't named are 0.
#[derive(Debug, Clone, Copy, PartialEq, Eq, Hash)]
pub enum Operands {
    /// All three are 0.
    None,
    /// a the [`ConstValue`], b the boolean, c the bytes of its body in the region plus 1, or 0.
    Constant,
    /// a the local.
    Local,
    /// a the instruction that it jumps to.
    Target,
    /// a the chunk that it calls.
    Callee,
    /// a the native function that it calls.
    Native,
    /// a what is pushed.
    Immediate,
    /// a the data slot.
    Slot,
    /// a the first data slot, b how many there are.
    Slots,
    /// a the form, 0 flat or 1 boxed; b the [`BodyKind`]; c its bytes (0 where it is boxed).
    Composite,
    /// a the form, 0 flat, 1 nested or 2 boxed; b the [`ScalarKind`] of a flat read or the [`BodyKind`] of a nested
    /// one; c the bytes of a nested body.
    Read,
}

/// Any number of values that an instruction may take.
const TAKEN: u8 = 64;
/// Any number of values that an instruction may give.
const GIVEN: u8 = 4;
/// What arithmetic gives that says how it went: low, high and flag.
const OUTCOME: u8 = 3;

impl Op {
    /// What its operands are.
    pub fn operands(self) -> Operands {
        match self {
            Op::CONST => Operands::Constant,
            Op::GET_LOCAL | Op::SET_LOCAL => Operands::Local,
            Op::GET_DATA | Op::SET_DATA => Operands::Slot,
            Op::GET_DATA_INDEXED | Op::SET_DATA_INDEXED => Operands::Slots,
            Op::IF | Op::ELSE | Op::LOOP | Op::END_LOOP | Op::BREAK | Op::BREAK_IF => Operands::Target,
            Op::CALL => Operands::Callee,
            Op::CALL_VERIFIED_NATIVE | Op::CALL_EXTERNAL_NATIVE => Operands::Native,
            Op::PUSH_IMMEDIATE => Operands::Immediate,
            Op::NEW_COMPOSITE => Operands::Composite,
            Op::GET_FIELD | Op::GET_INDEX | Op::GET_TUPLE_FIELD | Op::GET_ENUM_FIELD => Operands::Read,
            _ => Operands::None,
        }
    }

    /// How many values it may take in a description of good form.
    pub fn taken(self) -> RangeInclusive<u8> {
        match self {
            Op::IF | Op::BREAK_IF | Op::IS_ENUM | Op::IS_STRUCT => 1..=1,
            Op::CMP_EQ | Op::CMP_NE | Op::CMP_LT | Op::CMP_GT | Op::CMP_LE | Op::CMP_GE => 2..=TAKEN,
            Op::SHL | Op::SHR | Op::GET_INDEX => 2..=TAKEN,
            Op::SET_LOCAL | Op::DUP | Op::YIELD | Op::NOT | Op::BOUNDS_CHECK => 1..=TAKEN,
            Op::BIT_AND | Op::BIT_OR | Op::BIT_XOR | Op::FIXED_MUL | Op::FIXED_DIV => 1..=TAKEN,
            Op::SET_DATA | Op::GET_DATA_INDEXED | Op::SET_DATA_INDEXED => 1..=TAKEN,
            Op::GET_FIELD | Op::GET_TUPLE_FIELD | Op::GET_ENUM_FIELD => 1..=TAKEN,
            _ if self.converts() => 1..=TAKEN,
            _ => 0..=TAKEN,
        }
    }

    /// How many values it may give in a description of good form.
    pub fn given(self) -> RangeInclusive<u8> {
        match self {
            Op::DIV | Op::MOD | Op::FIXED_DIV => OUTCOME..=OUTCOME,
            _ if (Op::CHECKED_ADD..=Op::CHECKED_MOD).contains(&self) => OUTCOME..=OUTCOME,
            Op::IS_ENUM | Op::IS_STRUCT => 2..=2,
            Op::SET_LOCAL | Op::SET_DATA | Op::SET_DATA_INDEXED | Op::BOUNDS_CHECK => 0..=GIVEN,
            Op::IF | Op::ELSE | Op::END_IF | Op::LOOP | Op::END_LOOP | Op::BREAK | Op::BREAK_IF => 0..=GIVEN,
            Op::STREAM | Op::RESET | Op::RETURN | Op::TRAP => 0..=GIVEN,
            Op::DUP | Op::LEN | Op::POP_N => 0..=GIVEN,
            _ if self.name().is_none() => 0..=GIVEN,
            _ => 1..=GIVEN,
        }
    }

    /// What it takes and gives in whatever the compiler writes; `None` where that depends on the operands of the
    /// compiler's own instruction, which a description hasn't, or on their number.
    ///
    /// ```
    /// use genduvo::description::Op;
    ///
    /// assert_eq!(Op::CMP_LT.usual(), Some((2, 1)));
    /// assert_eq!(Op::CALL.usual(), None);
    /// ```
    pub fn usual(self) -> Option<(u8, u8)> {
        match self {
            Op::CALL | Op::CALL_VERIFIED_NATIVE | Op::CALL_EXTERNAL_NATIVE | Op::NEW_COMPOSITE | Op::POP_N => None,
            Op::GET_INDEX | Op::GET_DATA_INDEXED | Op::SET_DATA_INDEXED | Op::BOUNDS_CHECK => None,
            Op::CONST | Op::PUSH_IMMEDIATE | Op::GET_LOCAL | Op::GET_DATA => Some((0, 1)),
            Op::SET_LOCAL | Op::SET_DATA | Op::IF | Op::BREAK_IF => Some((1, 0)),
            Op::NEG | Op::NOT | Op::YIELD | Op::LEN => Some((1, 1)),
            Op::GET_FIELD | Op::GET_TUPLE_FIELD | Op::GET_ENUM_FIELD => Some((1, 1)),
            _ if self.converts() => Some((1, 1)),
            Op::DUP | Op::IS_ENUM | Op::IS_STRUCT => Some((1, 2)),
            Op::CHECKED_NEG => Some((1, OUTCOME)),
            _ if self.given() == (OUTCOME..=OUTCOME) => Some((2, OUTCOME)),
            _ if self.given() == (1..=GIVEN) => Some((2, 1)),
            _ => self.name().map(|_| (0, 0)),
        }
    }

    /// Whether it makes a number of one kind one of another.
    fn converts(self) -> bool {
        (Op::INT_TO_FLOAT..=Op::FIXED_TO_WORD).contains(&self)
    }
}
