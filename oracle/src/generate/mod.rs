//! Descriptions made from a seed, with a workspace, report buffer and limit
//! that fit exactly, fall short or are ample.

mod code;
pub mod coverage;
mod damage;
mod next;
mod outside;
pub mod random;
mod soup;
mod value;
mod world;

use crate::judged::Text;
use crate::model::Description;
use crate::run::{self, Measured, Outcome};
use code::Size;
use random::Random;

#[derive(Debug, Clone, PartialEq, Eq)]
pub struct Generated {
    pub bytes: Vec<u8>,
    pub words: u64,
    pub report_len: usize,
    pub limit: u32,
}

/// The limit of the first, ample run.
const AMPLE_STEPS: u32 = 20_000;
const AMPLE_QUEUE: u64 = 100_000;

/// The seed of a run's description, by its number below 2^32.
pub fn seed_of(run: u64, number: u64) -> u64 {
    run << 32 | number & 0xffff_ffff
}

pub fn generate(seed: u64) -> Generated {
    with_measure(seed).0
}

/// The description of a seed, and its ample run.
pub fn with_measure(seed: u64) -> (Generated, Measured) {
    made_for(seed, Text::TYPES)
}

/// The same, made so that this text judges nearly all of them: what damage and
/// chance make is left as it is.
pub fn made_for(seed: u64, text: Text) -> (Generated, Measured) {
    let mut r = Random::new(seed);
    let bytes = description(&mut r, text);
    let measured = ample(&bytes);
    let (words, report_len, limit) = bounds(&mut r, &measured);
    (Generated { bytes, words, report_len, limit }, measured)
}

fn ample(bytes: &[u8]) -> Measured {
    let least = Description::decode(bytes).map_or(0, |d| d.least_words());
    run::measure(bytes, least + AMPLE_QUEUE, usize::MAX, AMPLE_STEPS)
}

fn description(r: &mut Random, text: Text) -> Vec<u8> {
    let how = r.weighted(&[630, 130, 110, 80, 40, 9, 1]);
    let chunks = match how {
        6 => r.pick(&[1, 1, 20, 64]),
        _ => r.weighted(&[0, 42, 30, 15, 6, 4, 3]),
    };
    let reckless = match how {
        2 | 6 => 0,
        _ => r.pick(&[0, 0, 0, 4, 12, 60]),
    };
    let mut w = world::world(r, text, chunks, reckless);
    if how == 5 {
        let at = r.below(chunks);
        w.d.chunks[at].locals = r.pick(&[64, 255, 256]);
    }
    let small = r.often(700);
    let soup = how == 1 || how == 3 && r.often(150);
    let made: Vec<_> = (0..chunks)
        .map(|number| {
            if soup {
                let length = r.weighted(&[1, 35, 30, 20, 14]) * 7;
                return soup::chunk(r, &w, number, length);
            }
            let size = match how {
                6 if chunks == 1 => Size { statements: 400, depth: 4 },
                6 => Size { statements: 4, depth: 2 },
                _ if small => Size { statements: r.between(1, 2), depth: r.between(0, 2) },
                _ => Size { statements: r.between(1, 4), depth: r.between(0, 3) },
            };
            code::chunk(r, &w, number, size)
        })
        .collect();
    let mut d = w.d;
    d.chunks = made;
    if r.often(3) {
        let at = r.below(chunks);
        d.chunks[at].code.clear();
    }
    match how {
        2 => (0..r.between(1, 2)).for_each(|_| damage::edit(r, &mut d)),
        4 => damage::largest(r, &mut d),
        _ => {}
    }
    let mut bytes = d.encode();
    if how == 3 {
        (0..r.between(1, 2)).for_each(|_| damage::bytes(r, &mut bytes));
    }
    bytes
}

/// Words, report length and limit around what the ample run needed.
fn bounds(r: &mut Random, measured: &Measured) -> (u64, usize, u32) {
    let words = match measured.least_words {
        None => r.below(300) as u64,
        Some(least) => {
            let most = measured.most_queued.max(1);
            match r.weighted(&[35, 10, 7, 8, 3, 2, 35]) {
                0 => least + most,
                1 => least + 1,
                2 => least + (most - 1).max(1),
                3 => least + 1 + r.below(most as usize + 2) as u64,
                4 => least,
                5 => r.below(least as usize + 1) as u64,
                _ => least + most + r.below(40) as u64,
            }
        }
    };
    let report_len = match &measured.outcome {
        Outcome::Refused(_) => r.pick(&[0, 1, 500, 4096]),
        Outcome::Accepted { report, .. } => match r.weighted(&[40, 6, 3, 51]) {
            0 => report.len(),
            1 => report.len() - 1,
            2 => r.below(report.len()),
            _ => report.len() + r.below(200),
        },
    };
    let steps = measured.outcome.steps();
    let limit = match r.weighted(&[35, 6, 6, 1, 52]) {
        0 => steps,
        1 => steps.saturating_sub(1),
        2 => r.below(steps as usize + 1) as u32,
        3 => 0,
        _ => steps.saturating_add(r.pick(&[1, 10, AMPLE_STEPS])),
    };
    (words, report_len, limit)
}

/// The outcome within the bounds given: that of the ample run where these are
/// enough for it, else that of a run of its own.
pub fn outcome(one: &Generated, measured: &Measured) -> Outcome {
    let Some(least) = measured.least_words else { return measured.outcome.clone() };
    let enough = one.words >= least + measured.most_queued.max(1)
        && one.limit >= measured.outcome.steps()
        && !matches!(measured.outcome.number(), 7 | 8);
    if enough {
        match &measured.outcome {
            Outcome::Accepted { report, steps } if report.len() > one.report_len => {
                return run::refused(6, None, *steps);
            }
            same => return same.clone(),
        }
    }
    run::check(&one.bytes, one.words, one.report_len, one.limit)
}
