//! The instructions by place: what their operands mean, what they must take and
//! give. Their names are those of bindings/rust (`description::Op`).

/// How many places have a meaning: of instructions, constants, block types and
/// type tags.
pub const INSTRUCTIONS: u8 = 66;
pub const CONSTANTS: u8 = 12;
pub const BLOCKS: u8 = 3;
pub const TYPE_TAGS: u8 = 8;

macro_rules! places {
    ($($name:ident = $place:expr;)*) => {
        $(pub const $name: u8 = $place;)*

        /// All of them, each with what it is called here.
        pub const PLACES: &[(&str, u8)] = &[$((stringify!($name), $place)),*];
    };
}
places! {
    CONST = 0; GET_LOCAL = 1; SET_LOCAL = 2; GET_DATA = 3; SET_DATA = 4; GET_DATA_INDEXED = 5;
    SET_DATA_INDEXED = 6; BOUNDS_CHECK = 7; ADD = 8; SUB = 9; MUL = 10; DIV = 11; MOD = 12;
    NEG = 13; CMP_EQ = 14; CMP_NE = 15; CMP_LT = 16; CMP_GT = 17; CMP_LE = 18; CMP_GE = 19;
    NOT = 20; IF = 21; ELSE = 22; END_IF = 23; LOOP = 24; END_LOOP = 25; BREAK = 26;
    BREAK_IF = 27; STREAM = 28; RESET = 29; CALL = 30; RETURN = 31; YIELD = 32; DUP = 33;
    NEW_COMPOSITE = 34; GET_FIELD = 35; GET_INDEX = 36; GET_TUPLE_FIELD = 37;
    GET_ENUM_FIELD = 38; LEN = 39; IS_ENUM = 40; IS_STRUCT = 41; INT_TO_FLOAT = 42;
    FLOAT_TO_INT = 43; WORD_TO_BYTE = 44; BYTE_TO_WORD = 45; WORD_TO_FIXED = 46;
    FIXED_TO_WORD = 47; FIXED_MUL = 48; FIXED_DIV = 49; TRAP = 50; CHECKED_ADD = 51;
    CHECKED_SUB = 52; CHECKED_MUL = 53; CHECKED_NEG = 54; CHECKED_DIV = 55; CHECKED_MOD = 56;
    PUSH_IMMEDIATE = 57; POP_N = 58; BIT_AND = 59; BIT_OR = 60; BIT_XOR = 61; SHL = 62;
    SHR = 63; CALL_VERIFIED_NATIVE = 64; CALL_EXTERNAL_NATIVE = 65;
}

/// What the operands a, b, c of an instruction are.
#[derive(Debug, Clone, Copy, PartialEq, Eq)]
pub enum Operands {
    /// All three 0.
    None,
    Constant,
    Local,
    Target,
    Callee,
    Native,
    Immediate,
    Slot,
    Slots,
    Composite,
    Read,
}

pub fn operands(op: u8) -> Operands {
    match op {
        CONST => Operands::Constant,
        GET_LOCAL | SET_LOCAL => Operands::Local,
        GET_DATA | SET_DATA => Operands::Slot,
        GET_DATA_INDEXED | SET_DATA_INDEXED => Operands::Slots,
        IF | ELSE | LOOP | END_LOOP | BREAK | BREAK_IF => Operands::Target,
        CALL => Operands::Callee,
        CALL_VERIFIED_NATIVE | CALL_EXTERNAL_NATIVE => Operands::Native,
        PUSH_IMMEDIATE => Operands::Immediate,
        NEW_COMPOSITE => Operands::Composite,
        GET_FIELD | GET_INDEX | GET_TUPLE_FIELD | GET_ENUM_FIELD => Operands::Read,
        _ => Operands::None,
    }
}

/// Least and largest number taken.
pub fn taken(op: u8) -> (u8, u8) {
    match op {
        CMP_EQ..=CMP_GE | SHL | SHR | GET_INDEX => (2, 64),
        IF | BREAK_IF | IS_ENUM | IS_STRUCT => (1, 1),
        SET_LOCAL | DUP | YIELD | NOT | BIT_AND | BIT_OR | BIT_XOR | FIXED_MUL | FIXED_DIV
        | INT_TO_FLOAT..=FIXED_TO_WORD | BOUNDS_CHECK | SET_DATA | GET_DATA_INDEXED
        | SET_DATA_INDEXED | GET_FIELD | GET_TUPLE_FIELD | GET_ENUM_FIELD => (1, 64),
        _ => (0, 64),
    }
}

/// Least and largest number given.
pub fn given(op: u8) -> (u8, u8) {
    match op {
        CHECKED_ADD..=CHECKED_MOD | DIV | MOD | FIXED_DIV => (3, 3),
        IS_ENUM | IS_STRUCT => (2, 2),
        CONST | PUSH_IMMEDIATE | GET_LOCAL | YIELD | CALL | ADD | SUB | MUL | NEG
        | CMP_EQ..=CMP_GE | NOT | BIT_AND | BIT_OR | BIT_XOR | SHL | SHR | FIXED_MUL
        | INT_TO_FLOAT..=FIXED_TO_WORD | GET_DATA | GET_DATA_INDEXED | NEW_COMPOSITE
        | GET_FIELD | GET_INDEX | GET_TUPLE_FIELD | GET_ENUM_FIELD | CALL_VERIFIED_NATIVE
        | CALL_EXTERNAL_NATIVE => (1, 4),
        _ => (0, 4),
    }
}
