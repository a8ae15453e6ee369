//! What is known of one place.

use super::bytes::{flag_at, u16_at, u32_at};
use crate::mask::Mask;
use core::fmt;

/// The bytes of a cell.
pub const CELL: usize = 49;

/// A place that there is none of.
const NOWHERE: u16 = 65535;

/// How wide a value is.
#[derive(Debug, Clone, Copy, PartialEq, Eq, Hash)]
pub enum Width {
    /// It isn't known.
    Unknown,
    /// A scalar of so many bytes.
    Scalar(u32),
    /// A body of so many bytes.
    Body(u32),
}

impl Width {
    fn read(bytes: &[u8]) -> Option<Width> {
        match (bytes.first()?, u32_at(bytes, 1)?) {
            (0, 0) => Some(Width::Unknown),
            (1, size) => Some(Width::Scalar(size)),
            (2, size) => Some(Width::Body(size)),
            _ => None,
        }
    }

    fn parts(self) -> (u8, u32) {
        match self {
            Width::Unknown => (0, 0),
            Width::Scalar(size) => (1, size),
            Width::Body(size) => (2, size),
        }
    }
}

impl fmt::Display for Width {
    fn fmt(&self, f: &mut fmt::Formatter<'_>) -> fmt::Result {
        match self {
            Width::Unknown => f.write_str("unknown"),
            Width::Scalar(size) => write!(f, "scalar of {size}"),
            Width::Body(size) => write!(f, "body of {size}"),
        }
    }
}

/// How many bytes the bodies of one kind can have.
#[derive(Debug, Clone, Copy, PartialEq, Eq, Hash)]
pub enum Extent {
    /// There is no body of this kind.
    Absent,
    /// From `min` to `max` bytes.
    Range {
        /// The fewest bytes.
        min: u32,
        /// The most bytes.
        max: u32,
    },
    /// Nothing is known of them.
    Unknown,
}

impl Extent {
    /// The bytes of every such body, where they are all as long.
    pub fn exact(self) -> Option<u32> {
        match self {
            Extent::Range { min, max } if min == max => Some(min),
            _ => None,
        }
    }

    /// The fewest bytes, where they are known.
    pub fn minimum(self) -> Option<u32> {
        match self {
            Extent::Range { min, .. } => Some(min),
            _ => None,
        }
    }

    /// The most bytes, where they are known.
    pub fn maximum(self) -> Option<u32> {
        match self {
            Extent::Range { max, .. } => Some(max),
            _ => None,
        }
    }

    fn read(bytes: &[u8]) -> Option<Extent> {
        match (bytes.first()?, u32_at(bytes, 1)?, u32_at(bytes, 5)?) {
            (0, 0, 0) => Some(Extent::Absent),
            (1, min, max) => Some(Extent::Range { min, max }),
            (2, 0, 0) => Some(Extent::Unknown),
            _ => None,
        }
    }

    fn parts(self) -> (u8, u32, u32) {
        match self {
            Extent::Absent => (0, 0, 0),
            Extent::Range { min, max } => (1, min, max),
            Extent::Unknown => (2, 0, 0),
        }
    }
}

impl fmt::Display for Extent {
    fn fmt(&self, f: &mut fmt::Formatter<'_>) -> fmt::Result {
        match self {
            Extent::Absent => f.write_str("absent"),
            Extent::Range { min, max } => write!(f, "{min}..{max}"),
            Extent::Unknown => f.write_str("unknown"),
        }
    }
}

/// What a boolean that came of an `IsEnum` says about a local: where it equals `when`, the local `receiver` holds an
/// [`ENUM`](Mask::ENUM).
#[derive(Debug, Clone, Copy, PartialEq, Eq, Hash)]
pub struct Predicate {
    /// The local.
    pub receiver: u16,
    /// The boolean's value that says so.
    pub when: bool,
}

/// What is known of one place.
#[derive(Debug, Clone, Copy, PartialEq, Eq)]
pub struct Cell {
    /// The kinds of value that it can hold.
    pub mask: Mask,
    /// How wide the value is.
    pub width: Width,
    /// The bytes of its bodies: tuple, array, struct, enum.
    pub extents: [Extent; 4],
    /// Whether it may be a body of which the script has a copy of its own.
    pub owned: bool,
    /// The local that the value was read from and that still holds it.
    pub origin: Option<u16>,
    /// What the value says about a local.
    pub predicate: Option<Predicate>,
}

/// Where the parts of a cell stand.
mod part {
    pub const WIDTH: usize = 2;
    pub const EXTENTS: usize = 7;
    pub const EXTENT: usize = 9;
    pub const OWNED: usize = 43;
    pub const ORIGIN: usize = 44;
    pub const RECEIVER: usize = 46;
    pub const WHEN: usize = 48;
}

fn place(number: u16) -> Option<u16> {
    (number != NOWHERE).then_some(number)
}

impl Cell {
    /// The cell with these bytes; `None` where a byte has no meaning or an absent part isn't 0. What is read
    /// [writes](Cell::write) the same bytes.
    pub fn read(bytes: &[u8; CELL]) -> Option<Cell> {
        let mut extents = [Extent::Absent; 4];
        for (extent, bytes) in extents.iter_mut().zip(bytes[part::EXTENTS..].chunks_exact(part::EXTENT)) {
            *extent = Extent::read(bytes)?;
        }
        let predicate = match (u16_at(bytes, part::RECEIVER)?, flag_at(bytes, part::WHEN)?) {
            (NOWHERE, false) => None,
            (NOWHERE, true) => return None,
            (receiver, when) => Some(Predicate { receiver, when }),
        };
        Some(Cell {
            mask: Mask(u16_at(bytes, 0)?),
            width: Width::read(&bytes[part::WIDTH..])?,
            extents,
            owned: flag_at(bytes, part::OWNED)?,
            origin: place(u16_at(bytes, part::ORIGIN)?),
            predicate,
        })
    }

    /// Its bytes.
    pub fn write(&self) -> [u8; CELL] {
        let mut bytes = [0; CELL];
        let mut at = 0;
        let mut put = |part: &[u8]| {
            bytes[at..at + part.len()].copy_from_slice(part);
            at += part.len();
        };
        put(&self.mask.bits().to_le_bytes());
        let (width, size) = self.width.parts();
        put(&[width]);
        put(&size.to_le_bytes());
        for (form, min, max) in self.extents.map(Extent::parts) {
            put(&[form]);
            put(&min.to_le_bytes());
            put(&max.to_le_bytes());
        }
        put(&[u8::from(self.owned)]);
        put(&self.origin.unwrap_or(NOWHERE).to_le_bytes());
        put(&self.predicate.map_or(NOWHERE, |predicate| predicate.receiver).to_le_bytes());
        put(&[u8::from(self.predicate.is_some_and(|predicate| predicate.when))]);
        bytes
    }
}
