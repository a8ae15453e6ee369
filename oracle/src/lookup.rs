//! The part of a report that is one instruction's record.

use crate::model::{at16, split_field};

/// The first tag-19 field of four bytes or more that names chunk and
/// instruction, tag and length included; else the empty part at the end.
pub fn lookup(report: &[u8], chunk: u16, instruction: u16) -> &[u8] {
    let mut rest = report;
    while let Some((tag, contents, after)) = split_field(rest) {
        if tag == 19 && contents.len() >= 4 && (at16(contents, 0), at16(contents, 2)) == (chunk, instruction) {
            return &rest[..3 + contents.len()];
        }
        rest = after;
    }
    &report[report.len()..]
}
