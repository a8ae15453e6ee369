//! The port under comparison. Another port takes the place of the library
//! `facts` here and nowhere else.

pub enum Answer {
    Accepted { length: usize, steps: u32 },
    Refused { number: u8, chunk: u16, instruction: u16, steps: u32 },
}

pub fn check(description: &[u8], workspace: &mut [u32], report: &mut [u8], limit: u32) -> Answer {
    match facts::check(description, workspace, report, limit) {
        Ok(facts::Accepted { length, steps }) => Answer::Accepted { length, steps },
        Err(refusal) => refused(refusal),
    }
}

fn refused(refusal: facts::Refusal) -> Answer {
    let facts::Refusal { number, chunk, instruction, steps } = refusal;
    Answer::Refused { number, chunk, instruction, steps }
}

pub fn lookup(report: &[u8], chunk: u16, instruction: u16) -> &[u8] {
    facts::lookup(report, chunk, instruction)
}

/// The call with an index: its answer, and the index's length, 0 in a refusal.
pub fn check_indexed(
    description: &[u8],
    workspace: &mut [u32],
    report: &mut [u8],
    index: &mut [u8],
    limit: u32,
) -> (Answer, usize) {
    match facts::check_indexed(description, workspace, report, index, limit) {
        Ok(facts::AcceptedIndexed { length, steps, index }) => (Answer::Accepted { length, steps }, index),
        Err(refusal) => (refused(refusal), 0),
    }
}

/// The lookup through an index; None where the two disagree.
pub fn lookup_indexed<'a>(report: &'a [u8], index: &[u8], chunk: u16, instruction: u16) -> Option<&'a [u8]> {
    match facts::lookup_indexed(report, index, chunk, instruction) {
        Ok(part) => Some(&report[part.first..part.first + part.size]),
        Err(refusal) => {
            let named = (refusal.number, refusal.chunk, refusal.instruction, refusal.steps);
            assert_eq!(named, (20, 65535, 65535, 0), "what a disagreement names");
            None
        }
    }
}

/// The lookups to be timed.
#[allow(unused_imports)]
pub mod plain {
    pub use super::{lookup, lookup_indexed};
}

/// The least workspace and the length that no report passes, or the refusal's number.
#[allow(dead_code)]
pub fn sizes(description: &[u8]) -> Result<(u64, u64), u8> {
    match facts::sizes(description) {
        Ok(facts::Room { words, report }) => Ok((words, report)),
        Err(refusal) => Err(refusal.number),
    }
}

/// What a call of a run that pauses comes to; the index's length is 0 where none was asked for.
#[allow(dead_code)]
#[derive(Debug, Clone, Copy, PartialEq, Eq)]
pub enum Turn {
    Paused { steps: u32 },
    Refused { number: u8, chunk: u16, instruction: u16, steps: u32 },
    Accepted { length: usize, steps: u32, index: usize },
}

/// One call of a run that pauses: it is begun, or taken up.
#[allow(dead_code)]
pub fn turn(
    begun: bool,
    description: &[u8],
    (workspace, report, index): (&mut [u32], &mut [u8], &mut [u8]),
    indexed: bool,
    allowance: u32,
) -> Turn {
    let call = if begun { facts::start_run } else { facts::resume_run };
    match call(description, workspace, report, index, indexed, allowance) {
        facts::Turn::Paused { steps } => Turn::Paused { steps },
        facts::Turn::Accepted { length, steps, index } => Turn::Accepted { length, steps, index },
        facts::Turn::Refused(facts::Refusal { number, chunk, instruction, steps }) => {
            Turn::Refused { number, chunk, instruction, steps }
        }
    }
}
