//! The calls over lent memory.

use crate::raw;
use crate::reason::Reason;
use core::fmt;

/// The chunk or the instruction of a refusal that names none.
const NOWHERE: u32 = 65535;

/// An accepted call.
#[derive(Debug, Clone, Copy, PartialEq, Eq)]
pub struct Accepted {
    /// The report's length in bytes.
    pub length: usize,
    /// The steps taken.
    pub steps: u32,
}

/// An accepted call with an index.
#[derive(Debug, Clone, Copy, PartialEq, Eq)]
pub struct AcceptedIndexed {
    /// The report's length in bytes.
    pub length: usize,
    /// The index's length in bytes.
    pub index_length: usize,
    /// The steps taken.
    pub steps: u32,
}

/// A refusal.
#[derive(Debug, Clone, Copy, PartialEq, Eq)]
pub struct Refusal {
    /// Why.
    pub reason: Reason,
    /// The chunk that it names.
    pub chunk: Option<u16>,
    /// The instruction that it names.
    pub instruction: Option<u16>,
    /// The steps taken.
    pub steps: u32,
}

impl fmt::Display for Refusal {
    fn fmt(&self, f: &mut fmt::Formatter<'_>) -> fmt::Result {
        write!(f, "refused {}", self.reason)?;
        if let Some(chunk) = self.chunk {
            write!(f, ", at chunk {chunk}")?;
        }
        if let Some(instruction) = self.instruction {
            write!(f, ", instruction {instruction}")?;
        }
        write!(f, ", after {} steps", self.steps)
    }
}

impl core::error::Error for Refusal {}

/// What to lend for a description.
#[derive(Debug, Clone, Copy, PartialEq, Eq)]
pub struct Sizes {
    /// The least workspace, in words.
    pub words: usize,
    /// No report of the description has more bytes.
    pub report: usize,
}

/// The reason of a number that the library answers.
fn reason(number: u32) -> Reason {
    Reason::from_number(number).unwrap_or_else(|| {
        panic!("libfacts_c.a answers {number}, which no refusal of this crate has: take both of one version")
    })
}

/// A size that the library answers; what doesn't fit can't be lent either.
fn size(number: u64) -> usize {
    usize::try_from(number).unwrap_or(usize::MAX)
}

/// A place that a refusal names.
fn place(number: u32) -> Option<u16> {
    u16::try_from(number).ok().filter(|_| number != NOWHERE)
}

/// The call's numbers as they are: what it returns, and number, chunk, instruction, steps and length. Workspace and
/// report are as for [`check`]. For the oracle, which compares every number.
#[doc(hidden)]
pub fn numbers(description: &[u8], workspace: &mut [u32], report: &mut [u8], limit: u32) -> (u32, [u32; 5]) {
    let mut answer = [0; 5];
    // SAFETY: the slices are valid for the whole call, and what is written is borrowed for it alone.
    let number = unsafe {
        raw::facts_check(
            description.as_ptr(),
            description.len(),
            workspace.as_mut_ptr(),
            workspace.len(),
            report.as_mut_ptr(),
            report.len(),
            limit,
            &mut answer,
        )
    };
    (number, answer)
}

/// What an answer's numbers say. For the oracle.
#[doc(hidden)]
pub fn outcome(answer: [u32; 5]) -> Result<Accepted, Refusal> {
    let [number, chunk, instruction, steps, length] = answer;
    if number == 0 {
        return Ok(Accepted { length: size(length.into()), steps });
    }
    Err(Refusal { reason: reason(number), chunk: place(chunk), instruction: place(instruction), steps })
}

/// The numbers of a call with an index as they are: what it returns, and number, chunk, instruction, steps, the
/// report's length and the index's. For the oracle, which compares every number.
#[doc(hidden)]
pub fn indexed_numbers(
    description: &[u8],
    workspace: &mut [u32],
    report: &mut [u8],
    index: &mut [u8],
    limit: u32,
) -> (u32, [u32; 6]) {
    let mut answer = [0; 6];
    // SAFETY: the slices are valid for the whole call, and what is written is borrowed for it alone.
    let number = unsafe {
        raw::facts_check_indexed(
            description.as_ptr(),
            description.len(),
            workspace.as_mut_ptr(),
            workspace.len(),
            report.as_mut_ptr(),
            report.len(),
            index.as_mut_ptr(),
            index.len(),
            limit,
            &mut answer,
        )
    };
    (number, answer)
}

/// What the numbers of a call with an index say. For the oracle.
#[doc(hidden)]
pub fn indexed_outcome(answer: [u32; 6]) -> Result<AcceptedIndexed, Refusal> {
    let [number, chunk, instruction, steps, length, index] = answer;
    let Accepted { length, steps } = outcome([number, chunk, instruction, steps, length])?;
    Ok(AcceptedIndexed { length, index_length: size(index.into()), steps })
}

/// Analyses a description in the words of `workspace`, with `limit` steps at most. Accepted: the report is in the
/// first bytes of `report`. The workspace is as it was after the refusals 1 to 5, and zeros after all else; nothing
/// but a report is written to `report`.
///
/// A description has one report: every call that accepts it writes the same bytes and takes the same steps, whatever
/// workspace, buffer and limit it has. The guards of a record rise by stack place, then by mask.
///
/// ```
/// let description = include_bytes!("../../../examples/worked.bin");
/// let sizes = genduvo::sizes(description)?;
/// let mut workspace = vec![0; sizes.words + 1000];
/// let mut report = vec![0; sizes.report];
/// let accepted = genduvo::check(description, &mut workspace, &mut report, 1_000_000)?;
/// assert_eq!((accepted.length, accepted.steps), (306, 6));
/// # Ok::<(), genduvo::Refusal>(())
/// ```
pub fn check(description: &[u8], workspace: &mut [u32], report: &mut [u8], limit: u32) -> Result<Accepted, Refusal> {
    outcome(numbers(description, workspace, report, limit).1)
}

/// Analyses a description as [`check`] does, and writes an index of its report to the first bytes of `index`: an entry
/// of [`ENTRY`](crate::ENTRY) bytes for each record, rising by chunk, then instruction. An index buffer as long as the
/// report buffer is always enough.
///
/// Accepted where `check` accepts and the index buffer is long enough; else refused as `check` refuses, or with
/// [`IndexTooShort`](Reason::IndexTooShort), which comes after [`ReportTooLong`](Reason::ReportTooLong). A refusal
/// leaves both buffers as they were, and the bytes past the index stay. The workspace is zeros after `IndexTooShort`.
pub fn check_indexed(
    description: &[u8],
    workspace: &mut [u32],
    report: &mut [u8],
    index: &mut [u8],
    limit: u32,
) -> Result<AcceptedIndexed, Refusal> {
    indexed_outcome(indexed_numbers(description, workspace, report, index, limit).1)
}

/// The refusal of a description that has no good form, by its number: a call without any memory finds it, too, and
/// names the place.
fn bad_form(description: &[u8], number: u32) -> Refusal {
    let placeless = Refusal { reason: reason(number), chunk: None, instruction: None, steps: 0 };
    check(description, &mut [], &mut [], 0)
        .err()
        .filter(|refusal| refusal.reason == placeless.reason)
        .unwrap_or(placeless)
}

/// The least workspace for a description, in words; where it has no good form, the refusal 1 to 4. Nearly every script
/// wants some words more: see [`sizes`].
pub fn words(description: &[u8]) -> Result<usize, Refusal> {
    let mut words = [0];
    // SAFETY: the slice is valid for the whole call, and `words` is borrowed for it alone.
    let number = unsafe { raw::facts_words(description.as_ptr(), description.len(), &mut words) };
    if number == 0 { Ok(size(words[0])) } else { Err(bad_form(description, number)) }
}

/// The sizes of a description; where it has no good form, the refusal 1 to 4.
///
/// The report's is a bound: a report is often shorter, never longer. The workspace's is the least, in which the queue
/// has room for one entry; each word more is room for one more. Lend some more (1,000, say), and where a call is
/// refused with [`QueueFull`](Reason::QueueFull) lend more still and call again: the report doesn't depend on it.
pub fn sizes(description: &[u8]) -> Result<Sizes, Refusal> {
    let mut sizes = [0; 2];
    // SAFETY: the slice is valid for the whole call, and `sizes` is borrowed for it alone.
    let number = unsafe { raw::facts_sizes(description.as_ptr(), description.len(), &mut sizes) };
    let [words, report] = sizes.map(size);
    if number == 0 { Ok(Sizes { words, report }) } else { Err(bad_form(description, number)) }
}

/// The record of an instruction in a report, or in any bytes: a whole field, tag and length included, as
/// [`Record::read`](crate::report::Record::read) takes it. It walks from the report's first byte.
pub fn lookup(report: &[u8], chunk: u16, instruction: u16) -> Option<&[u8]> {
    let mut part = [0; 2];
    // SAFETY: the slice is valid for the whole call, and `part` is borrowed for it alone.
    let found = unsafe { raw::facts_lookup(report.as_ptr(), report.len(), chunk, instruction, &mut part) };
    if found == 0 { None } else { Some(part_of(report, part)) }
}

/// The part of a report that a lookup answers, by its first byte and its length.
pub(crate) fn part_of(report: &[u8], part: [u64; 2]) -> &[u8] {
    let [first, length] = part.map(size);
    &report[first..first + length]
}
