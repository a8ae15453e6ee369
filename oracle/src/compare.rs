//! Generated descriptions, given to the oracle and to the port.
//! `compare [--handle-4] [--next-branch] COUNT [SEED [FROM]]`: COUNT of a seed's
//! descriptions, from the FROMth on, held against types.rs; or made with handles
//! of four bytes, with branches to the very next instruction or with both, and
//! held against the copy of types.rs that judges them (judged.rs). The variable
//! THREADS says how many work at it.
//! `compare --index COUNT [SEED]`: small reports with indexes, damaged, and COUNT
//! of both at random, given to the lookup through an index (agreement.rs).
//! `compare --pause COUNT [SEED [FROM]]`: runs of the seed's descriptions cut into
//! turns, paused workspaces damaged and forged (pausing.rs, forged.rs).
//! With `cfg(linked)` the port is the static library; with `cfg(valgrind)` each
//! buffer is an allocation of its own that counts as never written.
#![allow(unexpected_cfgs)]

mod agreement;
#[cfg(not(linked))]
mod forged;
mod indexed;
#[cfg(valgrind)]
mod memcheck;
#[cfg(not(linked))]
mod pausing;
#[cfg(linked)]
#[path = "linked.rs"]
mod port;
#[cfg(not(linked))]
mod port;
mod shrink;
mod trial;

use indexed::{index_differs, lookup_indexed_differs};
use oracle::description::bytes_to_text;
use oracle::generate::coverage::Coverage;
use oracle::generate::random::Random;
use oracle::generate::{Generated, made_for, outcome, seed_of};
use oracle::judged::{Text, text_of};
use oracle::model::Description;
use oracle::run::{self, Outcome};
use std::process::exit;
use std::sync::Mutex;
use std::sync::atomic::{AtomicU64, Ordering};
use trial::{Bounds, Buffers, differs, lookup_differs, odd_report, shown, sizes_differ};

#[cfg(not(valgrind))]
#[global_allocator]
static POOL: oracle::pool::Pool = oracle::pool::Pool;

/// How many threads, where THREADS does not say.
const THREADS: usize = 2;
/// The run ends after so many differences.
const MOST: u64 = 10;

struct Shared {
    /// What is made is held against this text; what another judges is left out.
    text: Text,
    end: u64,
    run: u64,
    next: AtomicU64,
    compared: AtomicU64,
    /// Accepted descriptions, called with an index too.
    indexes: AtomicU64,
    /// Those of a copy's that types.rs itself answers otherwise.
    otherwise: AtomicU64,
    differences: AtomicU64,
    output: Mutex<()>,
}

impl Shared {
    /// Whether the description is judged by the text that this run compares with.
    fn holds(&self, d: &Description) -> bool {
        text_of(d) == self.text
    }

    /// Whether types.rs itself answers otherwise than the copy.
    fn answered_otherwise(&self, one: &Generated, expected: &Outcome) -> bool {
        let types = || run::check_by(Text::TYPES, &one.bytes, one.words, one.report_len, one.limit);
        self.text != Text::TYPES && types() != *expected
    }

    /// Counts and shows a difference, one at a time and no more than `MOST`.
    fn difference(&self, show: impl FnOnce()) {
        let _held = self.output.lock();
        if self.differences.load(Ordering::Relaxed) < MOST {
            self.differences.fetch_add(1, Ordering::Relaxed);
            show();
        }
    }
}

/// So many numbers at most, and at least one.
fn numbers(args: &[String], most: usize) -> Vec<u64> {
    let found: Vec<u64> = args.iter().map_while(|text| text.parse().ok()).collect();
    if found.is_empty() || found.len() > most || found.len() != args.len() {
        eprintln!(
            "compare [--handle-4] [--next-branch] COUNT [SEED [FROM]]\n\
             compare --index COUNT [SEED]\n\
             compare --pause COUNT [SEED [FROM]]"
        );
        exit(2);
    }
    found
}

fn main() {
    trial::keep_panics();
    let args: Vec<String> = std::env::args().skip(1).collect();
    if args.first().is_some_and(|text| text == "--index") {
        let args = numbers(&args[1..], 2);
        return compare_lookups(args[0], args.get(1).copied().unwrap_or(1));
    }
    #[cfg(not(linked))]
    if args.first().is_some_and(|text| text == "--pause") {
        let args = numbers(&args[1..], 3);
        let from = args.get(2).copied().unwrap_or(0);
        return compare_turns(args.get(1).copied().unwrap_or(1), from..from + args[0]);
    }
    let (text, args) = Text::asked(&args);
    let args = numbers(args, 3);
    let from = args.get(2).copied().unwrap_or(0);
    let shared = Shared {
        text,
        end: from + args[0],
        run: args.get(1).copied().unwrap_or(1),
        next: AtomicU64::new(from),
        compared: AtomicU64::new(0),
        indexes: AtomicU64::new(0),
        otherwise: AtomicU64::new(0),
        differences: AtomicU64::new(0),
        output: Mutex::new(()),
    };
    println!("{}", compare_all(&shared).table());
    if text != Text::TYPES {
        println!("{} answered otherwise by types.rs itself", shared.otherwise.load(Ordering::Relaxed));
    }
    println!("{} indexes compared", shared.indexes.load(Ordering::Relaxed));
    end(shared.compared.load(Ordering::Relaxed), shared.differences.load(Ordering::Relaxed))
}

/// The last line, and whether all is well.
fn end(compared: u64, differences: u64) -> ! {
    println!("{compared} compared, {differences} differences");
    exit(i32::from(differences > 0));
}

/// The lookup through an index alone.
fn compare_lookups(count: u64, seed: u64) {
    let all = agreement::compare(count, seed);
    for difference in &all.differences {
        println!("---- {difference}");
    }
    println!("{} reports agree with the index given", all.agreeing);
    end(all.compared, all.differences.len() as u64)
}

/// The variable THREADS, or `THREADS`.
fn threads() -> usize {
    std::env::var("THREADS").ok().and_then(|text| text.parse().ok()).unwrap_or(THREADS)
}

/// Runs that pause.
#[cfg(not(linked))]
fn compare_turns(run: u64, numbers: std::ops::Range<u64>) {
    let (next, differences, output) = (AtomicU64::new(numbers.start), AtomicU64::new(0), Mutex::new(()));
    let work = || {
        let (mut counts, mut other) = (pausing::Counts::default(), pausing::nothing());
        while differences.load(Ordering::Relaxed) < MOST {
            let number = next.fetch_add(1, Ordering::Relaxed);
            if number >= numbers.end {
                break;
            }
            if let Some(difference) = pausing::compare(run, number, &mut other, &mut counts) {
                let _held = output.lock();
                // Another thread may have found the last that is counted.
                if differences.load(Ordering::Relaxed) < MOST {
                    differences.fetch_add(1, Ordering::Relaxed);
                    println!("---- {difference}");
                }
            }
        }
        counts
    };
    let mut all = pausing::Counts::default();
    std::thread::scope(|scope| {
        let threads: Vec<_> = (0..threads()).map(|_| scope.spawn(work)).collect();
        threads.into_iter().for_each(|thread| all += thread.join().expect("a thread of the comparison"));
    });
    println!("{} pauses; {} runs of more than {} steps left out", all.pauses, all.left_out, pausing::LONG);
    println!("{} paused workspaces with a word changed", all.damaged);
    println!(
        "{} forged: {} begun afresh, {} of them at their end; {} reported, {} not ended",
        all.forged, all.afresh, all.faulty, all.reported, all.unended
    );
    end(all.runs, differences.load(Ordering::Relaxed))
}

/// All descriptions of the run, by some threads.
fn compare_all(shared: &Shared) -> Coverage {
    std::thread::scope(|scope| {
        let threads: Vec<_> = (0..threads()).map(|_| scope.spawn(|| work(shared))).collect();
        let mut all = Coverage::default();
        for thread in threads {
            match thread.join() {
                Ok(coverage) => all.join(&coverage),
                Err(_) => {
                    println!("the oracle itself stopped");
                    shared.differences.fetch_add(1, Ordering::Relaxed);
                }
            }
        }
        all
    })
}

fn work(shared: &Shared) -> Coverage {
    let mut coverage = Coverage::default();
    let mut buffers = Buffers::default();
    while shared.differences.load(Ordering::Relaxed) < MOST {
        let number = shared.next.fetch_add(1, Ordering::Relaxed);
        if number >= shared.end {
            break;
        }
        let seed = seed_of(shared.run, number);
        let made = std::panic::catch_unwind(|| {
            let (one, measured) = made_for(seed, shared.text);
            let expected = outcome(&one, &measured);
            let otherwise = shared.answered_otherwise(&one, &expected);
            (one, expected, otherwise, measured)
        });
        let Ok((one, expected, otherwise, measured)) = made else {
            shared.difference(|| println!("---- seed {seed}: the oracle itself stopped"));
            continue;
        };
        if !coverage.includes(&one.bytes, |d| shared.holds(d)) {
            continue;
        }
        coverage.add(&one.bytes, &expected);
        let least = measured.least_words.map(|words| words + 1).ok_or(expected.number());
        let found = compare(seed, &one, &expected, &mut buffers)
            .or_else(|| sizes_differ(&one.bytes, least, length(&measured.outcome)));
        shared.compared.fetch_add(1, Ordering::Relaxed);
        shared.indexes.fetch_add(u64::from(expected.number() == 0), Ordering::Relaxed);
        shared.otherwise.fetch_add(u64::from(otherwise), Ordering::Relaxed);
        if let Some(answer) = found {
            shared.difference(|| show(shared, seed, &one, &expected, &answer, &mut buffers));
        }
    }
    coverage
}

/// The length of the report, if there is one.
fn length(outcome: &Outcome) -> usize {
    if let Outcome::Accepted { report, .. } = outcome { report.len() } else { 0 }
}

fn compare(seed: u64, one: &Generated, expected: &Outcome, buffers: &mut Buffers) -> Option<String> {
    let bounds = Bounds { words: one.words as usize, report_len: one.report_len, index_len: 0, limit: one.limit };
    if let Some(answer) = both_differ(&one.bytes, &bounds, expected, seed as u32, buffers) {
        return Some(answer);
    }
    let mut r = Random::new(!seed);
    if let Outcome::Accepted { report, .. } = expected
        && r.often(300)
    {
        lookups_differ(report, &mut r).or_else(|| lookups_differ(&odd_report(report, &mut r), &mut r))
    } else if r.often(100) {
        lookups_differ(&odd_report(&[], &mut r), &mut r)
    } else {
        None
    }
}

/// The call without an index and with one.
fn both_differ(bytes: &[u8], bounds: &Bounds, expected: &Outcome, start: u32, b: &mut Buffers) -> Option<String> {
    differs(bytes, bounds, expected, start, b).or_else(|| index_differs(bytes, bounds, expected, start, b))
}

/// The lookup by the walk and through an index.
fn lookups_differ(report: &[u8], r: &mut Random) -> Option<String> {
    lookup_differs(report, r).or_else(|| lookup_indexed_differs(report, r))
}

fn show(shared: &Shared, seed: u64, one: &Generated, expected: &Outcome, answer: &str, buffers: &mut Buffers) {
    println!("---- seed {seed}: words {}, report {}, limit {}", one.words, one.report_len, one.limit);
    println!("oracle: {}", shown(expected));
    println!("port:   {answer}");
    // Where it also differs within ample bounds, a smaller one is shown.
    let mut ample = |d: &Description| {
        if !shared.holds(d) {
            return None;
        }
        let (words, report_len, limit) = (d.least_words() + 1000, 1 << 20, 20_000);
        let bytes = d.encode();
        let expected = run::check(&bytes, words, report_len, limit);
        let bounds = Bounds { words: words as usize, report_len, index_len: 0, limit };
        both_differ(&bytes, &bounds, &expected, 1, buffers).map(|answer| (expected, answer))
    };
    let described = Description::decode(&one.bytes).filter(|d| d.least_words() < 4_000_000);
    match described {
        Some(d) if ample(&d).is_some() => {
            let small = shrink::shrink(d, &mut |d| ample(d).is_some());
            let (expected, answer) = ample(&small).expect("still a difference");
            println!("smaller, within ample bounds:");
            println!("oracle: {}", shown(&expected));
            println!("port:   {answer}");
            print!("{}", bytes_to_text(&small.encode()));
        }
        _ => {
            let whole = bytes_to_text(&one.bytes);
            let lines: Vec<&str> = whole.lines().take(400).collect();
            println!("{}", lines.join("\n"));
        }
    }
}
