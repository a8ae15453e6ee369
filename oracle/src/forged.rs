//! Paused workspaces that come back with words changed: one, and the mark finds
//! it; or some with the mark put right, and nothing is promised but an end and
//! that memory is safe.

use crate::pausing::{Case, Counts, MOST, Memory, Run, WRONG_MARK, found};
use crate::port::Turn;
use oracle::generate::random::Random;
use oracle::model::Description;
use std::collections::HashSet;

/// Where the words of a paused run stand, among them its steps, and the mark behind them.
const CONTROL: (usize, usize) = (16, 23);
const STEPS: usize = 19;
const MARK: usize = 24;
/// What all words sum to.
const THE_MARK: u32 = 1_346_458_195;
/// The words before the chunks' numbers.
const HEAD_WORDS: usize = 64;
/// So many words at most are changed each in its turn.
const SMALL: usize = 3000;
/// No generated run takes so many steps: a forged run that goes on from here is told from one begun afresh.
const FAR: u32 = 100_000_000;

pub fn compare(run: &Run, r: &mut Random, other: &mut Memory, counts: &mut Counts) -> Result<(), String> {
    // Often near the end, in validation.
    let first = r.pick(&[0, run.steps - run.steps / 3 - 1, run.steps - 1]);
    let sum = r.between(first as usize, run.steps as usize - 1) as u32;
    let paused = run.paused(sum)?;
    if paused.workspace.len() <= SMALL && r.often(80) {
        found(damage_differs(run.case, &paused, r, counts))?;
    }
    total_differs(run, sum, paused.clone(), r)?;
    let layout = Layout::new(&run.case.bytes);
    for _ in 0..8 {
        let mut memory = paused.clone();
        let how = forge(&mut memory, &layout, other, r);
        forged_differs(run, memory, r, counts).map_err(|text| format!("forged, {how}, at {sum}: {text}"))?;
    }
    *other = paused;
    Ok(())
}

/// Each word changed in its turn; all of them zero.
fn damage_differs(case: &Case, paused: &Memory, r: &mut Random, counts: &mut Counts) -> Option<String> {
    let mut memory = paused.clone();
    for at in 0..memory.words().len() {
        let word = memory.words()[at];
        let (bit, any) = (1 << r.below(32), r.next() as u32);
        let other = r.pick(&[0, 1, word ^ bit, any]);
        memory.words()[at] = if other == word { !word } else { other };
        counts.damaged += 1;
        if let Some(text) = wrong_mark_differs(case, &mut memory, r.next() as u32) {
            return Some(format!("word {at} changed: {text}"));
        }
        memory.words()[at] = word;
    }
    memory.words().fill(0);
    wrong_mark_differs(case, &mut memory, 5).map(|text| format!("zeros: {text}"))
}

fn wrong_mark_differs(case: &Case, memory: &mut Memory, allowance: u32) -> Option<String> {
    let before = memory.clone();
    let answer = case.turn(false, memory, allowance);
    let same = answer == Ok(WRONG_MARK) && *memory == before;
    (!same).then(|| format!("{answer:?}, not {WRONG_MARK:?}, with all memory untouched"))
}

/// The mark put right.
fn put_mark(words: &mut [u32]) {
    words[MARK] = 0;
    let sum = words.iter().fold(0, |sum: u32, word| sum.wrapping_add(*word));
    words[MARK] = THE_MARK.wrapping_sub(sum);
}

/// A paused run whose total is raised to near the largest goes on to its end, to a pause or to 7.
fn total_differs(run: &Run, sum: u32, mut memory: Memory, r: &mut Random) -> Result<(), String> {
    let rest = run.steps - sum;
    let left = r.pick(&[0, 1, rest - 1, rest, rest + 1]);
    let allowance = r.pick(&[0, 1, left, left.saturating_sub(1), left + 1, MOST]);
    memory.words()[STEPS] = MOST - left;
    put_mark(memory.words());
    let before = memory.clone();
    let answer = run.case.turn(false, &mut memory, allowance)?;
    let wanted = if rest <= left.min(allowance) {
        with_steps(run.turn, MOST - left + rest)
    } else if allowance < left {
        Turn::Paused { steps: MOST - left + allowance }
    } else {
        with_steps(run.case.uncut(sum + left)?.0, MOST)
    };
    let same = match wanted {
        Turn::Accepted { .. } => memory == run.memory,
        Turn::Paused { .. } => memory.buffers_same(&before),
        Turn::Refused { .. } => memory.buffers_same(&before) && memory.words().iter().all(|word| *word == 0),
    };
    if answer != wanted || !same {
        let from = format!("from {sum} with {left} below the largest total and {allowance} allowed");
        return Err(format!("{answer:?}, not {wanted:?}, {from}"));
    }
    Ok(())
}

fn with_steps(turn: Turn, steps: u32) -> Turn {
    match turn {
        Turn::Paused { .. } => Turn::Paused { steps },
        Turn::Refused { number, chunk, instruction, .. } => Turn::Refused { number, chunk, instruction, steps },
        Turn::Accepted { length, index, .. } => Turn::Accepted { length, steps, index },
    }
}

/// Changes words, puts the mark right, and says what was changed. The steps are far above any generated run's.
fn forge(memory: &mut Memory, layout: &Layout, other: &mut Memory, r: &mut Random) -> &'static str {
    if r.often(300) {
        memory.lend_other(r);
    }
    let words = memory.words();
    let how = forge_words(words, layout, other, r);
    words[STEPS] = FAR;
    put_mark(words);
    how
}

fn forge_words(words: &mut [u32], layout: &Layout, other: &mut Memory, r: &mut Random) -> &'static str {
    let last = words.len() - 1;
    match r.below(8) {
        0 => "lengths alone",
        1 => {
            (0..r.between(1, 3)).for_each(|_| change(words, r.between(CONTROL.0, CONTROL.1), r));
            "the control words"
        }
        2 => {
            (0..r.between(1, 3)).for_each(|_| {
                let (at, most) = r.pick(&layout.heights);
                words[at.min(last)] = r.below(most + 4) as u32;
            });
            "heights"
        }
        3 => {
            (0..r.between(1, 4)).for_each(|_| change(words, r.between(layout.queue.min(last), last), r));
            "the queue"
        }
        4 => {
            (0..r.between(1, 40)).for_each(|_| change(words, r.between(HEAD_WORDS, last), r));
            "some words"
        }
        5 => {
            (HEAD_WORDS..=last).for_each(|at| words[at] = r.next() as u32 >> r.below(32));
            "all words"
        }
        6 => {
            let theirs = other.words();
            let both = theirs.len().min(words.len());
            words[..both].copy_from_slice(&theirs[..both]);
            "another's words"
        }
        _ => {
            let often = r.pick(&[5, 50, 500]);
            let heights: HashSet<usize> = layout.heights.iter().map(|(at, _)| *at).collect();
            let facts = (HEAD_WORDS..layout.queue.min(last)).filter(|at| !heights.contains(at));
            facts.for_each(|at| if r.often(often) { change(words, at, r) });
            "facts"
        }
    }
}

/// A word becomes another, often one that means something.
fn change(words: &mut [u32], at: usize, r: &mut Random) {
    let word = words[at];
    words[at] = match r.below(8) {
        0 => 0,
        1 => word.wrapping_add(1),
        2 => word.wrapping_sub(1),
        3 => r.pick(&[1, 2, 3, 65535, 65536, 1 << 31, u32::MAX]),
        4 => word ^ 1 << r.below(32),
        5 => r.below(20) as u32,
        6 => words[r.below(words.len())],
        _ => r.next() as u32,
    };
}

/// The places of a description's workspace that are forged with care.
struct Layout {
    /// The first words of the rows, which are heights, and the highest that a stack may be.
    heights: Vec<(usize, usize)>,
    /// The first word of the queue.
    queue: usize,
}

impl Layout {
    fn new(bytes: &[u8]) -> Self {
        let d = Description::decode(bytes).expect("a description that runs");
        let mut heights = Vec::new();
        // In cells.
        let mut at = 4 + d.chunks.len() + usize::from(d.header.slots);
        for chunk in &d.chunks {
            at += chunk.params() + 1;
            let most = usize::from(chunk.deepest);
            let size = usize::from(chunk.locals) + most + 6;
            heights.extend((0..chunk.code.len()).map(|row| (16 * (at + row * size), most)));
            at += chunk.code.len() * size;
        }
        assert_eq!(16 * at as u64, d.least_words(), "the words of a workspace");
        Layout { heights, queue: 16 * at }
    }
}

/// Some turns of a forged run: no panic, nothing written but what is lent, an end or a pause that can be taken up.
fn forged_differs(run: &Run, mut memory: Memory, r: &mut Random, counts: &mut Counts) -> Result<(), String> {
    let before = memory.clone();
    let case = Case { indexed: r.often(500), ..run.case.clone() };
    counts.forged += 1;
    let mut sum = FAR;
    for turn in 0..5 {
        let allowance = if turn == 4 { 2_000_000 } else { r.pick(&[0, 1, 7, 100, 2000]) };
        let answer = case.turn(false, &mut memory, allowance)?;
        sum += allowance;
        let (steps, number) = match answer {
            Turn::Paused { steps } => (steps, None),
            Turn::Refused { number, steps, .. } => (steps, Some(number)),
            Turn::Accepted { steps, .. } => (steps, Some(0)),
        };
        if FAR <= sum && steps < FAR && number != Some(5) {
            counts.afresh += 1;
            counts.faulty += u64::from(0 < turn);
            sum = allowance;
        }
        let fits = match number {
            None => steps == sum,
            Some(number) => steps <= sum && number != 21,
        };
        if !fits {
            return Err(format!("{answer:?} at a sum of {sum}"));
        }
        found(left_differs(answer, &mut memory, &before).map(|text| format!("{answer:?}, but {text}")))?;
        match answer {
            Turn::Paused { .. } => {}
            Turn::Refused { .. } => return Ok(()),
            Turn::Accepted { .. } => {
                counts.reported += 1;
                return Ok(());
            }
        }
    }
    counts.unended += 1;
    Ok(())
}

/// None where a turn has left what any turn of that answer does.
fn left_differs(answer: Turn, memory: &mut Memory, before: &Memory) -> Option<&'static str> {
    let (length, index) = match answer {
        Turn::Accepted { length, index, .. } => (length, index),
        _ => (0, 0),
    };
    let mut as_before = before.clone();
    as_before.report[..length].copy_from_slice(&memory.report[..length]);
    as_before.index[..index].copy_from_slice(&memory.index[..index]);
    if !memory.buffers_same(&as_before) {
        return Some("a byte past report or index is touched, or a word behind the workspace");
    }
    match answer {
        Turn::Paused { .. } => None,
        Turn::Refused { number: 5, .. } => (memory != before).then_some("the workspace is touched"),
        _ => memory.words().iter().any(|word| *word != 0).then_some("the workspace isn't zero"),
    }
}
