//! The index beside a report: an entry of twelve bytes for each record. Written
//! from document 02 alone; the port has its own.

use crate::lookup::lookup;
use crate::model::{Take, at16, put16, put32, split_field};

/// The bytes of an entry.
pub const ENTRY: usize = 12;

/// Chunk and instruction of a record, and the part of the report that it is,
/// tag and length included. In an index they have 2, 2, 4 and 4 bytes.
#[derive(Debug, Clone, Copy, PartialEq, Eq, PartialOrd, Ord)]
pub struct Entry {
    pub chunk: u16,
    pub instruction: u16,
    pub first: usize,
    pub length: usize,
}

impl Entry {
    pub fn place(&self) -> (u16, u16) {
        (self.chunk, self.instruction)
    }
}

/// The entries of all tag-19 fields of four bytes or more, in the report's
/// order; a field that overruns ends the walk.
pub fn entries(report: &[u8]) -> Vec<Entry> {
    let mut out = Vec::new();
    let mut rest = report;
    while let Some((tag, contents, after)) = split_field(rest) {
        if tag == 19 && contents.len() >= 4 {
            out.push(Entry {
                chunk: at16(contents, 0),
                instruction: at16(contents, 2),
                first: report.len() - rest.len(),
                length: rest.len() - after.len(),
            });
        }
        rest = after;
    }
    out
}

/// The index that has these entries.
pub fn bytes(entries: &[Entry]) -> Vec<u8> {
    let mut out = Vec::new();
    let number = |number: usize| u32::try_from(number).expect("a report below 4 GiB");
    for entry in entries {
        put16(&mut out, entry.chunk);
        put16(&mut out, entry.instruction);
        put32(&mut out, number(entry.first));
        put32(&mut out, number(entry.length));
    }
    out
}

/// The entries of an index; None where bytes are left over.
pub fn read(index: &[u8]) -> Option<Vec<Entry>> {
    let mut take = Take(index);
    let mut out = Vec::new();
    while !take.0.is_empty() {
        let (chunk, instruction) = (take.u16()?, take.u16()?);
        let (first, length) = (take.u32()? as usize, take.u32()? as usize);
        out.push(Entry { chunk, instruction, first, length });
    }
    Some(out)
}

/// Whether nothing is left over of the index, its entries rise, and they are
/// those of the report's records, each as often as there, in whatever order.
pub fn agrees(report: &[u8], index: &[u8]) -> bool {
    let Some(mut listed) = read(index) else { return false };
    let rises = listed.windows(2).all(|two| two[0].place() < two[1].place());
    let mut recorded = entries(report);
    listed.sort();
    recorded.sort();
    rises && listed == recorded
}

/// What `lookup` answers; None where report and index disagree.
pub fn lookup_indexed<'a>(report: &'a [u8], index: &[u8], chunk: u16, instruction: u16) -> Option<&'a [u8]> {
    agrees(report, index).then(|| lookup(report, chunk, instruction))
}
