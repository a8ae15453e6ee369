//! Which kinds of value a place can hold.

use core::fmt;
use core::ops::{BitAnd, BitOr};

/// The kinds of value that a place can hold, a bit each.
///
/// ```
/// use genduvo::Mask;
///
/// let mask = Mask::WORD | Mask::TRUE;
/// assert_eq!(mask.to_string(), "WORD|TRUE");
/// assert!(mask.meets(Mask::BOOL) && !mask.contains(Mask::BOOL));
/// assert_eq!(Mask(4098).to_string(), "BOOL");
/// ```
#[derive(Debug, Clone, Copy, PartialEq, Eq, PartialOrd, Ord, Hash, Default)]
pub struct Mask(pub u16);

/// The place of booleans among the scalar kinds, where they are two bits, and among the constants.
const BOOL_KIND: u8 = 1;
/// Scalar kinds below this have a bit; the body kinds' bits follow theirs.
const SCALAR_KINDS: u8 = 8;
/// Body kinds below this have a bit.
const BODY_KINDS: u8 = 4;

/// The masks of the constants by the place of their `ConstValue`; of the booleans that of `false`. `None` and what is
/// past it can be anything.
const CONSTANTS: [Mask; 11] = [
    Mask::UNIT,
    Mask::FALSE,
    Mask::WORD,
    Mask::BYTE,
    Mask::FIXED,
    Mask::FLOAT,
    Mask::TEXT,
    Mask::TUPLE,
    Mask::ARRAY,
    Mask::STRUCT,
    Mask::ENUM,
];

/// The masks that have a name, in the order of their bits, wholes before their parts: a name is taken where all its
/// bits are there and none of them has been named yet.
const NAMES: [(Mask, &str); 16] = [
    (Mask::UNKNOWN, "UNKNOWN"),
    (Mask::UNIT, "UNIT"),
    (Mask::BOOL, "BOOL"),
    (Mask::FALSE, "FALSE"),
    (Mask::BYTE, "BYTE"),
    (Mask::WORD, "WORD"),
    (Mask::FIXED, "FIXED"),
    (Mask::FLOAT, "FLOAT"),
    (Mask::TEXT, "TEXT"),
    (Mask::OPAQUE, "OPAQUE"),
    (Mask::BODY, "BODY"),
    (Mask::TUPLE, "TUPLE"),
    (Mask::ARRAY, "ARRAY"),
    (Mask::STRUCT, "STRUCT"),
    (Mask::ENUM, "ENUM"),
    (Mask::TRUE, "TRUE"),
];

impl Mask {
    /// No kind at all: nothing arrives there.
    pub const NONE: Mask = Mask(0);
    /// The unit value.
    pub const UNIT: Mask = Mask(1);
    /// The boolean `false`.
    pub const FALSE: Mask = Mask(2);
    /// A byte.
    pub const BYTE: Mask = Mask(4);
    /// A word.
    pub const WORD: Mask = Mask(8);
    /// A fixed-point number.
    pub const FIXED: Mask = Mask(16);
    /// A floating-point number.
    pub const FLOAT: Mask = Mask(32);
    /// A text.
    pub const TEXT: Mask = Mask(64);
    /// An opaque handle.
    pub const OPAQUE: Mask = Mask(128);
    /// A tuple.
    pub const TUPLE: Mask = Mask(256);
    /// An array.
    pub const ARRAY: Mask = Mask(512);
    /// A struct.
    pub const STRUCT: Mask = Mask(1024);
    /// An enum.
    pub const ENUM: Mask = Mask(2048);
    /// The boolean `true`.
    pub const TRUE: Mask = Mask(4096);
    /// Either boolean: [`FALSE`](Mask::FALSE) and [`TRUE`](Mask::TRUE).
    pub const BOOL: Mask = Mask(4098);
    /// Any body: tuple, array, struct and enum.
    pub const BODY: Mask = Mask(3840);
    /// Every kind.
    pub const UNKNOWN: Mask = Mask(8191);

    /// The number, as it stands in a report.
    pub const fn bits(self) -> u16 {
        self.0
    }

    /// Whether all of the other's kinds are here.
    pub const fn contains(self, other: Mask) -> bool {
        self.0 & other.0 == other.0
    }

    /// Whether the two have a kind in common.
    pub const fn meets(self, other: Mask) -> bool {
        self.0 & other.0 != 0
    }

    /// The kinds of either.
    pub const fn union(self, other: Mask) -> Mask {
        Mask(self.0 | other.0)
    }

    /// The kinds of both.
    pub const fn intersection(self, other: Mask) -> Mask {
        Mask(self.0 & other.0)
    }

    /// The kinds that the other has not.
    pub const fn without(self, other: Mask) -> Mask {
        Mask(self.0 & !other.0)
    }

    /// Whether there is no kind at all.
    pub const fn is_none(self) -> bool {
        self.0 == 0
    }

    /// [`TRUE`](Mask::TRUE) folded into [`FALSE`](Mask::FALSE), so that a boolean is one bit.
    pub const fn folded(self) -> Mask {
        let rest = self.without(Mask::TRUE);
        if self.meets(Mask::TRUE) { rest.union(Mask::FALSE) } else { rest }
    }

    /// The mask of a scalar kind, as shapes and operands have it: 1 is a boolean, the others below 8 are one bit, all
    /// else is [`UNKNOWN`](Mask::UNKNOWN).
    pub const fn scalar(kind: u8) -> Mask {
        match kind {
            BOOL_KIND => Mask::BOOL,
            0..SCALAR_KINDS => Mask(1 << kind),
            _ => Mask::UNKNOWN,
        }
    }

    /// The mask of a body kind: below 4 one bit, else [`BODY`](Mask::BODY).
    pub const fn body(kind: u8) -> Mask {
        if kind < BODY_KINDS { Mask(1 << (SCALAR_KINDS + kind)) } else { Mask::BODY }
    }

    /// The mask of a constant: the place of its `ConstValue`, and the value where it is a boolean.
    pub const fn constant(value: u8, bool_value: bool) -> Mask {
        match value {
            BOOL_KIND if bool_value => Mask::TRUE,
            _ if (value as usize) < CONSTANTS.len() => CONSTANTS[value as usize],
            _ => Mask::UNKNOWN,
        }
    }

    /// The names of its kinds, in the order of their bits: `BOOL` where both booleans are there, `BODY` for all four
    /// bodies, `UNKNOWN` for everything. None of them has none; bits above [`UNKNOWN`](Mask::UNKNOWN) have no name.
    pub fn names(self) -> impl Iterator<Item = &'static str> {
        let mut rest = self;
        NAMES.iter().filter_map(move |(mask, name)| {
            let there = rest.contains(*mask);
            rest = if there { rest.without(*mask) } else { rest };
            there.then_some(*name)
        })
    }
}

impl fmt::Display for Mask {
    fn fmt(&self, f: &mut fmt::Formatter<'_>) -> fmt::Result {
        if self.is_none() {
            return f.write_str("NONE");
        }
        let mut between = "";
        for name in self.names() {
            write!(f, "{between}{name}")?;
            between = "|";
        }
        match self.without(Mask::UNKNOWN) {
            Mask::NONE => Ok(()),
            Mask(unnamed) => write!(f, "{between}{unnamed:#x}"),
        }
    }
}

impl BitOr for Mask {
    type Output = Mask;

    fn bitor(self, other: Mask) -> Mask {
        self.union(other)
    }
}

impl BitAnd for Mask {
    type Output = Mask;

    fn bitand(self, other: Mask) -> Mask {
        self.intersection(other)
    }
}
