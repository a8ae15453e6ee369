//! The index beside a report.

use crate::call::part_of;
use crate::raw;
use crate::reason::Reason;

/// The bytes of an entry of an index.
pub const ENTRY: usize = 12;

/// What a lookup returns where there is no record, and where there is one.
const NONE: u32 = 0;
const FOUND: u32 = 1;

/// An entry of an index.
#[derive(Debug, Clone, Copy, PartialEq, Eq)]
pub struct Entry {
    /// The chunk of a record.
    pub chunk: u16,
    /// The instruction of the record.
    pub instruction: u16,
    /// The place of the record's first byte in the report.
    pub first: u32,
    /// Its length in bytes, tag and length bytes included.
    pub length: u32,
}

/// An index, or any bytes taken for one: its entries are as they stand there, and only [`lookup`](Index::lookup) holds
/// them against a report.
#[derive(Debug, Clone, Copy, PartialEq, Eq)]
pub struct Index<'a>(&'a [u8]);

impl<'a> Index<'a> {
    /// The index with these bytes.
    pub fn new(bytes: &'a [u8]) -> Self {
        Index(bytes)
    }

    /// Its bytes.
    pub fn bytes(self) -> &'a [u8] {
        self.0
    }

    /// How many entries it has; bytes left over are none.
    pub fn len(self) -> usize {
        self.0.len() / ENTRY
    }

    /// Whether it has no entry.
    pub fn is_empty(self) -> bool {
        self.len() == 0
    }

    /// The entry of this number, counted from 0.
    pub fn get(self, number: usize) -> Option<Entry> {
        let entry: &[u8; ENTRY] = self.0.chunks_exact(ENTRY).nth(number)?.try_into().ok()?;
        let [c0, c1, i0, i1, f0, f1, f2, f3, l0, l1, l2, l3] = *entry;
        Some(Entry {
            chunk: u16::from_le_bytes([c0, c1]),
            instruction: u16::from_le_bytes([i0, i1]),
            first: u32::from_le_bytes([f0, f1, f2, f3]),
            length: u32::from_le_bytes([l0, l1, l2, l3]),
        })
    }

    /// All entries, in their order.
    pub fn entries(self) -> impl Iterator<Item = Entry> + 'a {
        (0..self.len()).map_while(move |number| self.get(number))
    }

    /// The record of an instruction in the report that this is the index of: what the function
    /// [`lookup`](crate::lookup) answers. [`IndexDisagrees`](Reason::IndexDisagrees) where report and index disagree:
    /// bytes of the index are left over, or its entries don't rise or aren't, one for one, those of the report's
    /// records. The index that an accepted call writes never disagrees with its report.
    ///
    /// The whole of both is tested first; a program that trusts its own bytes goes by the [`entries`](Index::entries).
    pub fn lookup(self, report: &[u8], chunk: u16, instruction: u16) -> Result<Option<&[u8]>, Reason> {
        let mut part = [0; 2];
        // SAFETY: the slices are valid for the whole call, and `part` is borrowed for it alone.
        let number = unsafe {
            raw::facts_lookup_indexed(
                report.as_ptr(),
                report.len(),
                self.0.as_ptr(),
                self.0.len(),
                chunk,
                instruction,
                &mut part,
            )
        };
        match number {
            NONE => Ok(None),
            FOUND => Ok(Some(part_of(report, part))),
            _ => Err(Reason::IndexDisagrees),
        }
    }
}
