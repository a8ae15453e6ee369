//! The call with an index and the lookup through one, held against the call
//! without and against the walk.

use crate::port;
use crate::trial::{Bounds, Buffers, differs_indexed, guarded, pair};
use oracle::generate::random::Random;
use oracle::index::{self, ENTRY, Entry, entries, lookup_indexed};
use oracle::run::{NONE, Outcome, Refusal};

/// None where the call with an index comes out as the call without did, within
/// the same bounds, and the index is that of the report.
///
/// Where that one is accepted, the index buffer is as long as the index or
/// longer, and then one byte shorter. Where it is refused, the buffer is often
/// too short: every other refusal comes before 19.
pub fn index_differs(bytes: &[u8], bounds: &Bounds, expected: &Outcome, start: u32, b: &mut Buffers) -> Option<String> {
    let with = |index_len: usize| Bounds { index_len, ..*bounds };
    let Outcome::Accepted { report, steps } = expected else {
        let room = [0, 0, ENTRY - 1, 500][start as usize % 4];
        return differs_indexed(bytes, &with(room), (expected, &[]), start, b);
    };
    let index = index::bytes(&entries(report));
    let past = if start.is_multiple_of(2) { 0 } else { start as usize % 40 };
    let room = with(index.len() + past);
    differs_indexed(bytes, &room, (expected, &index), start, b).or_else(|| {
        let short = Outcome::Refused(Refusal { number: 19, chunk: NONE, instruction: NONE, steps: *steps });
        let room = with(index.len().checked_sub(1)?);
        differs_indexed(bytes, &room, (&short, &[]), start, b)
    })
}

/// None where the lookup of one place through an index answers as index.rs
/// says, of any bytes.
pub fn sought_differs(report: &[u8], index: &[u8], (chunk, instruction): (u16, u16)) -> Option<String> {
    let expected = lookup_indexed(report, index, chunk, instruction);
    let part = |part: Option<&[u8]>| {
        part.map(|part| ((part.as_ptr() as usize).wrapping_sub(report.as_ptr() as usize), part.len()))
    };
    let wrong = match guarded(|| port::lookup_indexed(report, index, chunk, instruction)) {
        Ok(answer) if part(answer) == part(expected) => return None,
        Ok(answer) => format!("{:?}", part(answer)),
        Err(panic) => panic,
    };
    let start = |bytes: &[u8]| format!("{} bytes: {:?}", bytes.len(), &bytes[..bytes.len().min(400)]);
    let (wanted, report, index) = (part(expected), start(report), start(index));
    Some(format!(
        "lookup {chunk} {instruction} through an index: {wrong}, not {wanted:?} (first byte, length; None: 20)\n\
         report of {report}\nindex of {index}"
    ))
}

/// Looks some places up through the index that the report's entries make, put
/// in order, and through a damaged one.
pub fn lookup_indexed_differs(report: &[u8], r: &mut Random) -> Option<String> {
    let recorded = entries(report);
    let own: Box<[u8]> = in_order(&recorded).into();
    let odd: Box<[u8]> = odd_index(&own, r).into();
    let report: Box<[u8]> = report.into();
    (0..4).find_map(|turn| {
        let place = pair(turn < 2, &recorded, r);
        sought_differs(&report, &own, place).or_else(|| sought_differs(&report, &odd, place))
    })
}

/// The index of these entries, put in order.
pub fn in_order(entries: &[Entry]) -> Vec<u8> {
    let mut entries = entries.to_vec();
    entries.sort();
    index::bytes(&entries)
}

/// An entry that no other stands behind.
const LAST: [u8; ENTRY] = [255, 255, 255, 255, 0, 0, 0, 0, 7, 0, 0, 0];

/// An index with a byte changed, cut, with bytes left over, with an entry more
/// or less, or with two exchanged; sometimes as it was.
pub fn odd_index(own: &[u8], r: &mut Random) -> Vec<u8> {
    let mut out = own.to_vec();
    let mut all: Vec<&[u8]> = own.chunks(ENTRY).collect();
    match r.below(7) {
        0 if !out.is_empty() => {
            let at = r.below(out.len());
            out[at] = r.pick(&[0, 1, 2, 7, 15, 255]);
            out
        }
        1 => {
            out.truncate(r.below(out.len() + 1));
            out
        }
        2 if !all.is_empty() => {
            let (at, more) = if r.often(500) { (all.len(), &LAST[..]) } else { (r.below(all.len()), r.pick(&all)) };
            all.insert(at, more);
            all.concat()
        }
        3 if !all.is_empty() => {
            all.remove(r.below(all.len()));
            all.concat()
        }
        4 => {
            out.extend(&[0; ENTRY][..r.between(1, ENTRY - 1)]);
            out
        }
        5 if !all.is_empty() => {
            let (one, other) = (r.below(all.len()), r.below(all.len()));
            all.swap(one, other);
            all.concat()
        }
        _ => out,
    }
}
