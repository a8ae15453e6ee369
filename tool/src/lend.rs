//! The library's call with memory that grows until it is enough or no more is allowed.

use crate::args::Options;
use crate::progress::while_working;
use crate::show::grouped;
use crate::stop::{Stop, failed};
use genduvo::{Reason, Refusal, Sizes};
use std::sync::atomic::{AtomicU64, Ordering};

/// Words beyond the least workspace to begin with, each of them room for an entry of the queue.
const QUEUE: usize = 1_000;
/// Bytes of the first report buffer; the bound can be far above what a report has.
const REPORT: usize = 16 << 20;
const REPORT_GROWS: usize = 4;
const WORD_BYTES: usize = size_of::<u32>();

/// How much may be used.
#[derive(Debug, Clone, Copy)]
pub struct Bounds {
    /// The most steps.
    pub limit: u32,
    /// The most memory to lend, in bytes.
    pub memory: u64,
}

impl Bounds {
    /// As the command line has them.
    pub fn of(options: &Options) -> Bounds {
        Bounds { limit: options.limit, memory: options.memory }
    }
}

/// What was lent to the last call, and what the description wants.
#[derive(Debug, Clone, Copy)]
pub struct Lent {
    /// Words of the workspace.
    pub words: usize,
    /// Bytes of the report buffer.
    pub report: usize,
    /// The least workspace and the bound of the report.
    pub sizes: Sizes,
}

impl Lent {
    fn bytes(self) -> u64 {
        (self.words * WORD_BYTES + self.report) as u64
    }

    /// Bytes that are enough for the workspace with its first queue and for any report.
    pub fn enough(self) -> u64 {
        let words = self.sizes.words.saturating_add(QUEUE);
        words.saturating_mul(WORD_BYTES).saturating_add(self.sizes.report) as u64
    }
}

/// An accepted description.
#[derive(Debug)]
pub struct Accepted {
    /// The report's bytes.
    pub report: Vec<u8>,
    /// The steps taken.
    pub steps: u32,
    /// What was lent.
    pub lent: Lent,
}

/// What the library answers.
#[derive(Debug)]
pub enum Outcome {
    /// Accepted, with its report.
    Accepted(Accepted),
    /// Refused; nothing was lent for a description of bad form.
    Refused(Refusal, Option<Lent>),
}

/// Analyses a description, again with more memory where the queue or the report was too small.
pub fn analyse(description: &[u8], bounds: &Bounds) -> Result<Outcome, Stop> {
    let sizes = match genduvo::sizes(description) {
        Ok(sizes) => sizes,
        Err(refusal) => return Ok(Outcome::Refused(refusal, None)),
    };
    let lent_bytes = AtomicU64::new(0);
    while_working(&lent_bytes, || grow(description, bounds, sizes, &lent_bytes))
}

fn grow(description: &[u8], bounds: &Bounds, sizes: Sizes, shown: &AtomicU64) -> Result<Outcome, Stop> {
    let mut wish = Lent { words: sizes.words.saturating_add(QUEUE), report: sizes.report.min(REPORT), sizes };
    loop {
        let lent = allowed(wish, bounds.memory);
        shown.store(lent.bytes(), Ordering::Relaxed);
        let refusal = match call(description, lent, bounds.limit)? {
            Outcome::Refused(refusal, _) => refusal,
            accepted => return Ok(accepted),
        };
        wish = match refusal.reason {
            Reason::QueueFull => Lent { words: more_words(lent), ..lent },
            Reason::ReportTooLong => {
                Lent { report: lent.report.saturating_mul(REPORT_GROWS).min(sizes.report), ..lent }
            }
            _ => return Ok(Outcome::Refused(refusal, Some(lent))),
        };
        let next = allowed(wish, bounds.memory);
        if (next.words, next.report) == (lent.words, lent.report) {
            return Ok(Outcome::Refused(refusal, Some(lent)));
        }
    }
}

/// Twice the room for the queue.
fn more_words(lent: Lent) -> usize {
    let room = lent.words.saturating_sub(lent.sizes.words) + 1;
    lent.words.saturating_add(room)
}

/// As much of a wish as the memory allows: the workspace first.
fn allowed(wish: Lent, memory: u64) -> Lent {
    let memory = usize::try_from(memory).unwrap_or(usize::MAX);
    let words = wish.words.min(memory / WORD_BYTES);
    let report = wish.report.min(memory - words * WORD_BYTES);
    Lent { words, report, ..wish }
}

fn call(description: &[u8], lent: Lent, limit: u32) -> Result<Outcome, Stop> {
    let mut workspace: Vec<u32> = zeros(lent.words)?;
    let mut report: Vec<u8> = zeros(lent.report)?;
    Ok(match genduvo::check(description, &mut workspace, &mut report, limit) {
        Ok(accepted) => {
            report.truncate(accepted.length);
            Outcome::Accepted(Accepted { report, steps: accepted.steps, lent })
        }
        Err(refusal) => Outcome::Refused(refusal, Some(lent)),
    })
}

/// Memory that the machine doesn't have is a message, not the end of the program: so it is asked for first.
fn zeros<T: Clone + Default>(count: usize) -> Result<Vec<T>, Stop> {
    if Vec::<T>::new().try_reserve_exact(count).is_err() {
        let bytes = grouped(count.saturating_mul(size_of::<T>()) as u64);
        return failed(format!("this machine doesn't give {bytes} bytes of memory"));
    }
    Ok(vec![T::default(); count])
}
