//! The call with an index beside the call without one, and the lookup through an
//! index beside the walk, by the clock: `bench --index`.

use crate::port::{self, plain};
use crate::{Case, LIMIT, each, port as called, turn};
use oracle::index::{self, Entry, entries};
use oracle::run::NONE;
use oracle::timing::now;
use std::time::Duration;

/// So many lookups at least are timed together: a short one takes less than
/// the clock.
const TOGETHER: usize = 1000;

/// A case with what the call with an index gives.
struct Indexed<'a> {
    case: &'a Case,
    report: Vec<u8>,
    index: Vec<u8>,
    entries: Vec<Entry>,
}

impl<'a> Indexed<'a> {
    /// The index is held against the second walk.
    fn new(case: &'a Case, workspace: &mut [u32]) -> Self {
        let mut report = vec![0; case.report];
        let mut index = vec![0; case.report];
        let (answer, length) =
            port::check_indexed(&case.bytes, &mut workspace[..case.words], &mut report, &mut index, LIMIT);
        assert!(matches!(answer, port::Answer::Accepted { steps, .. } if steps == case.steps));
        index.truncate(length);
        let entries = entries(&report);
        assert!(index == index::bytes(&entries), "the index is that of the report");
        Indexed { case, report, index, entries }
    }

    /// The whole call.
    fn call(&mut self, workspace: &mut [u32]) -> Duration {
        let (case, words) = (self.case, &mut workspace[..self.case.words]);
        let start = now();
        let (answer, length) = port::check_indexed(&case.bytes, words, &mut self.report, &mut self.index, LIMIT);
        let time = now() - start;
        assert!(matches!(answer, port::Answer::Accepted { steps, .. } if steps == case.steps));
        assert_eq!(length, self.index.len());
        time
    }

    /// All records looked up, once; they are looked up often enough to be timed.
    fn lookups<'b>(&'b self, look: impl Fn(u16, u16) -> &'b [u8]) -> Duration {
        let passes = TOGETHER.div_ceil(self.entries.len().max(1));
        let mut found = 0;
        let start = now();
        for _ in 0..passes {
            found += self.entries.iter().map(|entry| look(entry.chunk, entry.instruction).len()).sum::<usize>();
        }
        let time = now() - start;
        assert_eq!(found, passes * self.entries.iter().map(|entry| entry.length).sum::<usize>());
        time / passes as u32
    }

    /// One place that no record has, looked up: the walk goes to the end.
    fn miss<'b>(&'b self, look: impl Fn(u16, u16) -> &'b [u8]) -> Duration {
        let start = now();
        let found: usize = (0..TOGETHER).map(|_| look(NONE, NONE).len()).sum();
        let time = now() - start;
        assert_eq!(found, 0);
        time / TOGETHER as u32
    }

    fn by_walk(&self, chunk: u16, instruction: u16) -> &[u8] {
        plain::lookup(&self.report, chunk, instruction)
    }

    fn through_index(&self, chunk: u16, instruction: u16) -> &[u8] {
        plain::lookup_indexed(&self.report, &self.index, chunk, instruction).expect("its own index")
    }
}

/// The best times of the call without and with an index, of the lookups of all
/// records by the walk and through the index, and of a lookup that finds
/// nothing by both, summed over all cases.
fn measure(cases: &[Case], rounds: u64) -> ([Duration; 6], usize) {
    let words = cases.iter().map(|case| case.words).max().unwrap_or(0);
    let bytes = cases.iter().map(|case| case.report).max().unwrap_or(0);
    let (mut workspace, mut report) = (vec![0u32; words], vec![0u8; bytes]);
    let (mut best, mut records) = ([Duration::ZERO; 6], 0);
    for case in cases {
        let mut one = Indexed::new(case, &mut workspace);
        let mut least = [Duration::MAX; 6];
        for _ in 0..rounds {
            least[0] = least[0].min(turn(|| called(case, &mut workspace, &mut report)));
            least[1] = least[1].min(turn(|| one.call(&mut workspace)));
            least[2] = least[2].min(turn(|| one.lookups(|c, i| one.by_walk(c, i))));
            least[3] = least[3].min(turn(|| one.lookups(|c, i| one.through_index(c, i))));
            least[4] = least[4].min(turn(|| one.miss(|c, i| one.by_walk(c, i))));
            least[5] = least[5].min(turn(|| one.miss(|c, i| one.through_index(c, i))));
        }
        best.iter_mut().zip(least).for_each(|(sum, time)| *sum += time);
        records += one.entries.len();
    }
    (best, records)
}

pub fn show(groups: &[(&str, Vec<Case>)], rounds: u64) {
    println!("{:<16} {:<11} {:>12} {:>12} {:>12}", "", "ns for a", "without", "with index", "with/without");
    for (name, cases) in groups {
        let (best, records) = measure(cases, rounds);
        let line = |name: &str, of: &str, two: &[Duration], count: usize, places: usize| {
            let [without, with] = [0, 1].map(|at| each(two[at], count as f64));
            println!("{name:<16} {of:<11} {without:>12.places$} {with:>12.places$} {:>12.2}", with / without);
        };
        line(name, "description", &best[..2], cases.len(), 0);
        line("", "lookup", &best[2..4], records, 1);
        line("", "miss", &best[4..], cases.len(), 1);
    }
}
