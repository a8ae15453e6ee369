//! What an accepted analysis found, with every part in the open.

use crate::Width;

#[derive(Debug, Clone, Copy, PartialEq, Eq)]
pub(crate) struct Cell {
    pub mask: u16,
    pub width: Width,
    /// Tuple, array, struct, enum: 0, 1, 2 (absent, range, unknown), min, max.
    pub extents: [(u8, u32, u32); 4],
    pub owned: bool,
    pub origin: Option<usize>,
    pub predicate: Option<(usize, bool)>,
}

#[derive(Debug, PartialEq, Eq)]
pub(crate) struct Record {
    pub chunk: usize,
    pub instruction: usize,
    pub stack: Vec<Cell>,
    pub locals: Vec<Cell>,
    pub outputs: Vec<(usize, Cell)>,
    /// Rising by stack place.
    pub guards: Vec<(usize, u16)>,
}

#[derive(Debug, PartialEq, Eq)]
pub(crate) struct Found {
    pub reply_maximum: u32,
    pub inputs: Vec<Vec<Cell>>,
    pub results: Vec<Cell>,
    /// One for each slot, mask 0: the masks are a local of `check`, which a
    /// probe hands out.
    pub private: Vec<Cell>,
    pub records: Vec<Record>,
    pub inspections: Vec<(usize, usize)>,
    pub branches: Vec<(usize, usize, bool)>,
}
