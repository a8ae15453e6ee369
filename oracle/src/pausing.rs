//! Runs cut into turns, held against the call that can't pause: `compare --pause`.
//! forged.rs has paused workspaces that are damaged or forged.

use crate::forged;
use crate::port::{self, Turn};
use crate::trial::guarded;
use oracle::generate::random::Random;
use oracle::generate::{Generated, seed_of, with_measure};
use oracle::run::NONE;
use std::ops::AddAssign;

/// Runs of so many steps at most are cut at every step.
const EVERY: u32 = 300;
/// Of a longer one so many steps are cut at.
const SOME: u32 = 12;
/// A run cut at random has so many turns at most.
const TURNS: usize = 60;
/// The uncut call is given up after so many steps.
pub const LONG: u32 = 1_000_000;
/// No run takes more steps.
pub const MOST: u32 = u32::MAX;
/// Words and bytes behind what is lent, that nothing may touch; none under valgrind, which sees that.
const BEHIND: usize = if cfg!(valgrind) { 0 } else { 8 };

/// What was compared.
#[derive(Debug, Default, Clone, Copy)]
pub struct Counts {
    /// Runs cut, and the pauses in them.
    pub runs: u64,
    pub pauses: u64,
    /// Damaged paused workspaces.
    pub damaged: u64,
    /// Forged ones that were taken up, and those where the run was begun afresh.
    pub forged: u64,
    pub afresh: u64,
    /// Of these, those that had gone on before: at its end the run had a row with a fault.
    pub faulty: u64,
    /// Forged ones whose report was written, and those still paused at the end.
    pub reported: u64,
    pub unended: u64,
    /// Too long without a cut.
    pub left_out: u64,
}

impl AddAssign for Counts {
    fn add_assign(&mut self, more: Counts) {
        self.runs += more.runs;
        self.pauses += more.pauses;
        self.damaged += more.damaged;
        self.forged += more.forged;
        self.afresh += more.afresh;
        self.faulty += more.faulty;
        self.reported += more.reported;
        self.unended += more.unended;
        self.left_out += more.left_out;
    }
}

/// What is lent, with some room behind each.
#[derive(Clone, PartialEq)]
pub struct Memory {
    pub workspace: Vec<u32>,
    pub report: Vec<u8>,
    pub index: Vec<u8>,
}

impl Memory {
    fn new((words, report, index): (usize, usize, usize), start: u64) -> Self {
        let mut r = Random::new(start);
        Memory {
            workspace: (0..words + BEHIND).map(|_| r.next() as u32).collect(),
            report: (0..report + BEHIND).map(|_| r.next() as u8).collect(),
            index: (0..index + BEHIND).map(|_| r.next() as u8).collect(),
        }
    }

    fn lent(&mut self) -> (&mut [u32], &mut [u8], &mut [u8]) {
        let Memory { workspace, report, index } = self;
        let (words, bytes, room) = (workspace.len() - BEHIND, report.len() - BEHIND, index.len() - BEHIND);
        (&mut workspace[..words], &mut report[..bytes], &mut index[..room])
    }

    /// The words that are lent.
    pub fn words(&mut self) -> &mut [u32] {
        self.lent().0
    }

    /// Lengths become others: of the workspace, not always enough, and of the buffers.
    pub fn lend_other(&mut self, r: &mut Random) {
        let words = self.workspace.len();
        self.workspace.resize(r.between(words - 40, words + 40), 1);
        self.report.resize(r.below(self.report.len() + 1) + BEHIND, 2);
        self.index.resize(r.below(self.index.len() + 1) + BEHIND, 3);
    }

    /// Whether report buffer and index buffer, and what is behind the workspace, are as those of another.
    pub fn buffers_same(&self, other: &Memory) -> bool {
        let behind = |memory: &Memory| memory.workspace[memory.workspace.len() - BEHIND..].to_vec();
        self.report == other.report && self.index == other.index && behind(self) == behind(other)
    }
}

/// A description with what it is lent.
#[derive(Clone)]
pub struct Case {
    pub bytes: Box<[u8]>,
    pub lengths: (usize, usize, usize),
    pub indexed: bool,
    pub start: u64,
}

impl Case {
    fn new(one: &Generated, r: &mut Random) -> Self {
        let words = one.words as usize;
        let index = if r.often(700) { one.report_len } else { r.below(one.report_len + 1) };
        let lengths = (words, one.report_len, index);
        Case { bytes: one.bytes.clone().into(), lengths, indexed: r.often(500), start: r.next() }
    }

    /// The memory as it is before the first turn.
    pub fn memory(&self) -> Memory {
        Memory::new(self.lengths, self.start)
    }

    /// One turn; a panic is an error.
    pub fn turn(&self, begun: bool, memory: &mut Memory, allowance: u32) -> Result<Turn, String> {
        let call = if begun { "start_run" } else { "resume_run" };
        guarded(|| port::turn(begun, &self.bytes, memory.lent(), self.indexed, allowance))
            .map_err(|panic| format!("{call} with {allowance}: {panic}"))
    }

    /// The call that can't pause.
    pub fn uncut(&self, limit: u32) -> Result<(Turn, Memory), String> {
        let mut memory = self.memory();
        let (workspace, report, index) = memory.lent();
        let (answer, length) = guarded(|| {
            if self.indexed {
                return port::check_indexed(&self.bytes, workspace, report, index, limit);
            }
            (port::check(&self.bytes, workspace, report, limit), 0)
        })?;
        let turn = match answer {
            port::Answer::Accepted { length: report, steps } => Turn::Accepted { length: report, steps, index: length },
            port::Answer::Refused { number, chunk, instruction, steps } => {
                Turn::Refused { number, chunk, instruction, steps }
            }
        };
        Ok((turn, memory))
    }
}

/// A case and what its uncut run comes to.
pub struct Run<'a> {
    pub case: &'a Case,
    pub turn: Turn,
    pub memory: Memory,
    pub steps: u32,
}

impl Run<'_> {
    /// What a turn answers that ends at this sum of allowances.
    fn wanted(&self, sum: u32) -> Turn {
        if self.steps > sum { Turn::Paused { steps: sum } } else { self.turn }
    }

    /// None where a turn that ended at this sum has answered and left what it should.
    fn differs(&self, answer: Turn, sum: u32, memory: &Memory) -> Option<String> {
        let wanted = self.wanted(sum);
        if answer != wanted {
            return Some(format!("{answer:?}, not {wanted:?}, at a sum of {sum}"));
        }
        let same = match wanted {
            Turn::Paused { .. } => memory.buffers_same(&self.case.memory()),
            _ => *memory == self.memory,
        };
        (!same).then(|| format!("{answer:?} at a sum of {sum}, but memory is not as it should be"))
    }

    /// The memory paused at this sum, which is below the run's steps.
    pub fn paused(&self, sum: u32) -> Result<Memory, String> {
        let mut memory = self.case.memory();
        let answer = self.case.turn(true, &mut memory, sum)?;
        self.differs(answer, sum, &memory).map_or(Ok(memory), Err)
    }

    /// What comes after the last turn: nothing is left to be taken up.
    fn differs_after(&self, mut memory: Memory, allowance: u32) -> Option<String> {
        let wanted = match self.turn {
            Turn::Refused { number: 1..=5, .. } => self.turn,
            _ => WRONG_MARK,
        };
        let before = memory.clone();
        match self.case.turn(false, &mut memory, allowance) {
            Err(panic) => Some(panic),
            Ok(answer) if answer != wanted => Some(format!("{answer:?} after the end, not {wanted:?}")),
            Ok(_) => (memory != before).then(|| "memory touched after the end".into()),
        }
    }
}

/// The refusal of a wrong mark.
pub const WRONG_MARK: Turn = Turn::Refused { number: 21, chunk: NONE, instruction: NONE, steps: 0 };

/// Cut at every step and then run to its end; and in single steps: paused at the
/// same step, all words are the same.
fn steps_differ(run: &Run, r: &mut Random, counts: &mut Counts) -> Result<(), String> {
    let case = run.case;
    let mut walked = case.memory();
    for sum in 0..=run.steps {
        let answer = case.turn(sum == 0, &mut walked, u32::from(sum > 0))?;
        found(run.differs(answer, sum, &walked))?;
        let mut memory = case.memory();
        let answer = case.turn(true, &mut memory, sum)?;
        found(run.differs(answer, sum, &memory))?;
        if memory != walked {
            return Err(format!("paused at {sum} in single steps it leaves other words than at once"));
        }
        counts.runs += 1;
        if sum < run.steps {
            counts.pauses += 2;
            found(rest_differs(run, sum, memory, r))?;
        }
    }
    found(run.differs_after(walked, 0))
}

/// Some steps of a long run.
fn some_differ(run: &Run, r: &mut Random, counts: &mut Counts) -> Result<(), String> {
    for _ in 0..SOME {
        let sum = r.below(run.steps as usize) as u32;
        let memory = run.paused(sum)?;
        found(rest_differs(run, sum, memory, r))?;
        counts.runs += 1;
        counts.pauses += 1;
    }
    Ok(())
}

/// Taken up with what it needs, or more.
fn rest_differs(run: &Run, sum: u32, mut memory: Memory, r: &mut Random) -> Option<String> {
    let rest = run.steps - sum;
    let allowance = r.pick(&[rest, rest, rest + 1, MOST - sum, MOST]);
    match run.case.turn(false, &mut memory, allowance) {
        Ok(answer) => run.differs(answer, sum.saturating_add(allowance), &memory),
        Err(panic) => Some(panic),
    }
}

/// Cut at random, 0 included, with refused calls between.
fn random_differs(run: &Run, r: &mut Random, counts: &mut Counts) -> Result<(), String> {
    let mut memory = run.case.memory();
    let mut sum = 0;
    for turn in 0..=TURNS {
        let left = run.steps - sum;
        let part = left as usize / r.between(1, 20);
        let allowance = match r.below(6) {
            _ if turn == TURNS => MOST,
            0 => 0,
            1 => 1,
            2 => left.min(2),
            3 => r.pick(&[left, left.saturating_sub(1), left + 1]),
            _ => r.below(part + 1) as u32,
        };
        sum = sum.saturating_add(allowance);
        let answer = run.case.turn(turn == 0, &mut memory, allowance)?;
        found(run.differs(answer, sum, &memory))?;
        if sum >= run.steps {
            break;
        }
        counts.pauses += 1;
        if r.often(60) {
            found(refused_differs(run.case, &mut memory))?;
        }
    }
    counts.runs += 1;
    found(run.differs_after(memory, r.next() as u32))
}

/// A paused run is still there after a call that is refused 1 or 5.
fn refused_differs(case: &Case, memory: &mut Memory) -> Option<String> {
    let before = memory.clone();
    let short = Case { bytes: case.bytes[..case.bytes.len() - 1].into(), ..case.clone() };
    let narrow = |memory: &mut Memory| {
        let (workspace, report, index) = memory.lent();
        guarded(|| port::turn(false, &case.bytes, (&mut workspace[..63], report, index), case.indexed, 5))
    };
    let answers = [(1, short.turn(false, memory, 5)), (5, narrow(memory))];
    answers.into_iter().find_map(|(number, answer)| {
        let wanted = Turn::Refused { number, chunk: NONE, instruction: NONE, steps: 0 };
        let same = answer == Ok(wanted) && *memory == before;
        (!same).then(|| format!("{answer:?}, not {wanted:?}, with all memory untouched"))
    })
}

/// A difference, as an error.
pub fn found(difference: Option<String>) -> Result<(), String> {
    difference.map_or(Ok(()), Err)
}

/// All that is compared of one description. `other` is a paused memory of another
/// one, for forging; one of this is left there.
pub fn compare(run: u64, number: u64, other: &mut Memory, counts: &mut Counts) -> Option<String> {
    let seed = seed_of(run, number);
    let (one, _) = with_measure(seed);
    let mut r = Random::new(!seed);
    let case = Case::new(&one, &mut r);
    let shown = |text: String| {
        let Case { lengths: (words, report, index), indexed, .. } = case;
        format!("seed {seed}: words {words}, report {report}, index {index}, indexed {indexed}: {text}")
    };
    compare_case(&case, &mut r, other, counts).err().map(shown)
}

fn compare_case(case: &Case, r: &mut Random, other: &mut Memory, counts: &mut Counts) -> Result<(), String> {
    if let Turn::Refused { number: 7, .. } = case.uncut(LONG)?.0 {
        counts.left_out += 1;
        return Ok(());
    }
    let (turn, memory) = case.uncut(MOST)?;
    let (Turn::Refused { steps, .. } | Turn::Accepted { steps, .. } | Turn::Paused { steps }) = turn;
    let run = Run { case, turn, memory, steps };
    if steps <= EVERY {
        steps_differ(&run, r, counts)?;
    } else {
        some_differ(&run, r, counts)?;
    }
    for _ in 0..3 {
        random_differs(&run, r, counts)?;
    }
    if 0 < steps { forged::compare(&run, r, other, counts) } else { Ok(()) }
}

/// A memory with nothing lent.
pub fn nothing() -> Memory {
    Memory::new((0, 0, 0), 0)
}
