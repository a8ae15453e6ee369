//! One call: a description, the words of a workspace, the length of a report
//! buffer and a step limit give an outcome.

use crate::coroutine::dialogue::Plan;
use crate::found::Found;
use crate::judged::{Text, text_of};
use crate::model::Description;
use crate::module::{Given, given};
use crate::{LowerError, coroutine, form, handle_4, handle_4_next_branch, next_branch, probe, probed, report};
use keleusma::bytecode::Module;
use keleusma::told;

/// An absent chunk or instruction.
pub const NONE: u16 = 65535;

#[derive(Debug, Clone, Copy, PartialEq, Eq)]
pub struct Refusal {
    pub number: u8,
    pub chunk: u16,
    pub instruction: u16,
    pub steps: u32,
}

#[derive(Debug, Clone, PartialEq, Eq)]
pub enum Outcome {
    Accepted { report: Vec<u8>, steps: u32 },
    Refused(Refusal),
}

/// An outcome, and what the call needs to come out the same way.
#[derive(Debug, Clone)]
pub struct Measured {
    pub outcome: Outcome,
    /// W, where the form is good.
    pub least_words: Option<u64>,
    /// The most entries that the queue held.
    pub most_queued: u64,
}

impl Outcome {
    pub fn number(&self) -> u8 {
        match self {
            Outcome::Accepted { .. } => 0,
            Outcome::Refused(refusal) => refusal.number,
        }
    }
    pub fn steps(&self) -> u32 {
        match self {
            Outcome::Accepted { steps, .. } => *steps,
            Outcome::Refused(refusal) => refusal.steps,
        }
    }
}

pub fn check(bytes: &[u8], words: u64, report_len: usize, limit: u32) -> Outcome {
    measure(bytes, words, report_len, limit).outcome
}

/// What this text answers, whichever judges the description.
pub fn check_by(text: Text, bytes: &[u8], words: u64, report_len: usize, limit: u32) -> Outcome {
    measure_by(|_| text, bytes, words, report_len, limit).outcome
}

pub fn measure(bytes: &[u8], words: u64, report_len: usize, limit: u32) -> Measured {
    measure_by(text_of, bytes, words, report_len, limit)
}

fn measure_by(
    text: impl Fn(&Description) -> Text,
    bytes: &[u8],
    words: u64,
    report_len: usize,
    limit: u32,
) -> Measured {
    if let Err(refusal) = form::check(bytes) {
        let outcome = Outcome::Refused(refusal);
        return Measured { outcome, least_words: None, most_queued: 0 };
    }
    let d = Description::decode(bytes).expect("a description of good form");
    let least = d.least_words();
    if words <= least {
        let outcome = refused(5, None, 0);
        return Measured { outcome, least_words: Some(least), most_queued: 0 };
    }
    let outcome = run(text(&d), &d, words - least, report_len, limit);
    Measured { outcome, least_words: Some(least), most_queued: probe::most() }
}

pub(crate) fn refused(number: u8, at: Option<(usize, usize)>, steps: u32) -> Outcome {
    let (chunk, instruction) = at.map_or((NONE, NONE), |(c, i)| (c as u16, i as u16));
    Outcome::Refused(Refusal { number, chunk, instruction, steps })
}

/// How the text of 13 begins; behind it stand the chunk's name and the instruction.
const NOT_PROVEN: &str = "coroutine scalar types are not proven in ";

/// The refusal that an error of types.rs stands for.
fn class(error: &str) -> u8 {
    let classes = [
        ("coroutine scalar admission requires complete signatures", 9),
        ("coroutine parameter signature disagrees with its runtime type", 10),
        ("coroutine replies need a bounded body extent", 11),
        ("private initializer exceeds slot table", 12),
        (NOT_PROVEN, 13),
        ("coroutine indexed access crosses private scalar and body placements", 14),
        ("coroutine construction has no packed extent within its region reservation", 15),
        ("coroutine body extent does not prove an enum discriminant", 16),
        ("coroutine inspection has mixed or unknown receiver kinds", 17),
    ];
    let found = classes.iter().find(|(text, _)| error.starts_with(text));
    found.unwrap_or_else(|| panic!("an error of types.rs: {error}")).1
}

/// Chunk and instruction that the text of 13 names; the name of a chunk is its number (`module`).
pub fn not_proven_at(error: &str) -> Option<(usize, usize)> {
    let (name, rest) = error.strip_prefix(NOT_PROVEN)?.split_once(" at ")?;
    let (instruction, _) = rest.split_once(": ")?;
    Some((name.parse().ok()?, instruction.parse().ok()?))
}

/// Refusals 9 and 10 with their chunk, found here because types.rs does not
/// say where; `run` holds it against what types.rs answers.
fn signatures(d: &Description) -> Option<(u8, usize)> {
    for (number, chunk) in d.chunks.iter().enumerate() {
        if chunk.reachable == 0 {
            continue;
        }
        let Some(signature) = &chunk.signature else { return Some((9, number)) };
        if chunk.code.is_empty() || signature.params.len() != usize::from(chunk.param_count) {
            return Some((9, number));
        }
        for (tag, shape) in chunk.tags.iter().zip(&signature.params) {
            // The scalar kind that each type tag asks for.
            let wanted = match tag {
                1 => 2,
                2 => 3,
                3 => 4,
                4 => 5,
                5 => 1,
                6 => 0,
                7 => 6,
                _ => continue,
            };
            if shape.tag != 1 || shape.kind != wanted {
                return Some((10, number));
            }
        }
    }
    None
}

/// `check` of a text of types.rs.
type Check = fn(&Module, usize, Plan) -> Result<Found, LowerError>;

/// A text as it is and with the probes.
fn checks(text: Text) -> (Check, Check) {
    match (text.handle_4, text.next_branch) {
        (false, false) => (coroutine::verbatim, probed::probed),
        (true, false) => (handle_4::verbatim, handle_4::probed),
        (false, true) => (next_branch::verbatim, next_branch::probed),
        (true, true) => (handle_4_next_branch::verbatim, handle_4_next_branch::probed),
    }
}

fn run(text: Text, d: &Description, capacity: u64, report_len: usize, limit: u32) -> Outcome {
    let (verbatim, probed) = checks(text);
    let Given { module, entry, plan, declared } = given(d);
    told::begin(&declared);
    probe::begin(limit, capacity);
    let seen = probed(&module, entry, plan.clone());
    let private_kinds = probe::take_private_kinds();
    let (at, scanned) = (told::at(), probe::scanned());
    let takings = told::takings();
    let steps = u32::try_from(takings).expect("a step total fits");
    if let Err(LowerError::Probe { number, chunk, instruction }) = seen {
        return refused(number, Some((chunk, instruction)), steps);
    }

    // The text without probes must say the same.
    told::begin(&declared);
    let published = verbatim(&module, entry, plan);
    assert_eq!(told::takings(), takings, "probed and published steps differ");
    let (found, published) = match (seen, published) {
        (Ok(found), Ok(published)) => (found, published),
        (Err(LowerError::UnsupportedShape(error)), Err(published)) => {
            assert_eq!(LowerError::UnsupportedShape(error.clone()), published);
            return refusal(d, &error, at, scanned, steps);
        }
        (Ok(_), Err(published)) => panic!("only the published text refuses: {published:?}"),
        (Err(seen), _) => panic!("only the probed text refuses: {seen:?}"),
    };
    let report = report::bytes(&found, &private_kinds);
    assert!(report == report::bytes(&published, &private_kinds), "probed and published facts differ");
    assert_eq!(signatures(d), None, "types.rs accepts the signatures");
    if report.len() > report_len {
        return refused(6, None, steps);
    }
    Outcome::Accepted { report, steps }
}

fn refusal(
    d: &Description,
    error: &str,
    at: Option<(usize, usize)>,
    scanned: Option<(usize, usize)>,
    steps: u32,
) -> Outcome {
    let number = class(error);
    match number {
        9 | 10 => {
            let (own, chunk) = signatures(d).expect("types.rs refuses the signatures");
            assert_eq!(own, number, "types.rs: {error}");
            refused(number, Some((chunk, usize::from(NONE))), steps)
        }
        11 | 12 => refused(number, None, steps),
        13 => {
            let named = not_proven_at(error).expect("types.rs names the place of 13");
            assert_eq!(Some(named), at, "the entry taken last; types.rs: {error}");
            refused(number, Some(named), steps)
        }
        14 | 15 => refused(number, Some(at.expect("an entry was taken")), steps),
        _ => refused(number, Some(scanned.expect("a state was looked at")), steps),
    }
}
