//! The port under comparison, as the static library `libfacts_c.a`. What the
//! functions of bindings/rust leave out of sight is held against the header
//! here; a panic is a difference.

use genduvo::{Index, Refusal, raw};
use oracle::run::NONE;

pub enum Answer {
    Accepted { length: usize, steps: u32 },
    Refused { number: u8, chunk: u16, instruction: u16, steps: u32 },
}

pub fn check(description: &[u8], workspace: &mut [u32], report: &mut [u8], limit: u32) -> Answer {
    let (number, answer) = genduvo::numbers(description, workspace, report, limit);
    assert_eq!(number, answer[0], "what facts_check returns");
    match genduvo::outcome(answer) {
        Ok(accepted) => {
            assert_eq!(answer[1..3], [u32::from(NONE); 2], "the place of an accepted call");
            Answer::Accepted { length: accepted.length, steps: accepted.steps }
        }
        Err(refusal) => {
            assert_eq!(answer[4], 0, "the length of a refusal");
            refused(refusal, &answer)
        }
    }
}

/// The refusal, held against the numbers that say it.
fn refused(refusal: Refusal, answer: &[u32]) -> Answer {
    let [chunk, instruction] = [refusal.chunk, refusal.instruction].map(|place| place.unwrap_or(NONE));
    let number = refusal.reason.number();
    assert_eq!(answer[..3], [number.into(), chunk.into(), instruction.into()], "number and place of a refusal");
    Answer::Refused { number, chunk, instruction, steps: refusal.steps }
}

/// The call with an index: its answer, and the index's length, 0 in a refusal.
pub fn check_indexed(
    description: &[u8],
    workspace: &mut [u32],
    report: &mut [u8],
    index: &mut [u8],
    limit: u32,
) -> (Answer, usize) {
    let (number, answer) = genduvo::indexed_numbers(description, workspace, report, index, limit);
    assert_eq!(number, answer[0], "what facts_check_indexed returns");
    match genduvo::indexed_outcome(answer) {
        Ok(accepted) => {
            assert_eq!(answer[1..3], [u32::from(NONE); 2], "the place of an accepted call");
            (Answer::Accepted { length: accepted.length, steps: accepted.steps }, accepted.index_length)
        }
        Err(refusal) => {
            assert_eq!(answer[4..], [0; 2], "the lengths of a refusal");
            (refused(refusal, &answer), 0)
        }
    }
}

pub fn lookup(report: &[u8], chunk: u16, instruction: u16) -> &[u8] {
    let found = genduvo::lookup(report, chunk, instruction);
    let mut part = [7; 2];
    // SAFETY: the slice is valid for the whole call, and `part` is borrowed for it alone.
    let there = unsafe { raw::facts_lookup(report.as_ptr(), report.len(), chunk, instruction, &mut part) };
    assert_eq!(there, u32::from(found.is_some()), "what facts_lookup returns");
    found.unwrap_or_else(|| none(report, part))
}

/// The empty part at the end, which is answered where there is no record.
fn none(report: &[u8], part: [u64; 2]) -> &[u8] {
    assert_eq!(part, [report.len() as u64, 0], "the part of no record");
    &report[report.len()..]
}

/// The lookup through an index; None where the two disagree. Not timed.
#[allow(dead_code)]
pub fn lookup_indexed<'a>(report: &'a [u8], index: &[u8], chunk: u16, instruction: u16) -> Option<&'a [u8]> {
    let sought = Index::new(index).lookup(report, chunk, instruction);
    let mut part = [7; 2];
    let ((bytes, size), (entries, room)) = ((report.as_ptr(), report.len()), (index.as_ptr(), index.len()));
    // SAFETY: the slices are valid for the whole call, and `part` is borrowed for it alone.
    let there = unsafe { raw::facts_lookup_indexed(bytes, size, entries, room, chunk, instruction, &mut part) };
    match sought {
        Ok(found) => {
            assert_eq!(there, u32::from(found.is_some()), "what facts_lookup_indexed returns");
            Some(found.unwrap_or_else(|| none(report, part)))
        }
        Err(reason) => {
            assert_eq!((there, reason.number()), (20, 20), "what facts_lookup_indexed returns");
            assert_eq!(part, [report.len() as u64, 0], "the part of a disagreement");
            None
        }
    }
}

/// The lookups to be timed: those of bindings/rust, which hold nothing against the header.
#[allow(unused_imports, dead_code)]
pub mod plain {
    pub fn lookup(report: &[u8], chunk: u16, instruction: u16) -> &[u8] {
        genduvo::lookup(report, chunk, instruction).unwrap_or_default()
    }

    pub fn lookup_indexed<'a>(report: &'a [u8], index: &[u8], chunk: u16, instruction: u16) -> Option<&'a [u8]> {
        genduvo::Index::new(index).lookup(report, chunk, instruction).ok().map(Option::unwrap_or_default)
    }
}

/// The least workspace and the length that no report passes, or the refusal's number; facts_words answers the first of
/// them.
pub fn sizes(description: &[u8]) -> Result<(u64, u64), u8> {
    let mut sizes = [7; 2];
    // SAFETY: the slice is valid for the whole call, and `sizes` is borrowed for it alone.
    let number = unsafe { raw::facts_sizes(description.as_ptr(), description.len(), &mut sizes) };
    assert!(number == 0 || sizes == [0, 0], "the sizes of a refusal");
    let answer = genduvo::sizes(description);
    assert_eq!(answer.map_or_else(number_of, |_| 0), number, "what facts_sizes returns");
    let answer = answer.map(|sizes| (sizes.words as u64, sizes.report as u64));
    assert_eq!(words(description), answer.map(|sizes| sizes.0), "facts_words and facts_sizes");
    answer.map_err(|refusal| refusal.reason.number())
}

fn number_of(refusal: Refusal) -> u32 {
    refusal.reason.number().into()
}

/// The least workspace, or the refusal, whose place is that of a call.
fn words(description: &[u8]) -> Result<u64, Refusal> {
    let mut words = [7];
    // SAFETY: the slice is valid for the whole call, and `words` is borrowed for it alone.
    let number = unsafe { raw::facts_words(description.as_ptr(), description.len(), &mut words) };
    assert!(number == 0 || words[0] == 0, "the words of a refusal");
    let answer = genduvo::words(description);
    assert_eq!(answer.map_or_else(number_of, |_| 0), number, "what facts_words returns");
    if let Err(refusal) = answer {
        let (_, numbers) = genduvo::numbers(description, &mut [0; 1], &mut [], 1);
        refused(refusal, &numbers);
    }
    answer.map(|words| words as u64)
}
