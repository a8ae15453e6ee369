//! The port and types.rs on the same descriptions, by the clock.
//! `bench [--index] [ROUNDS] [SEED]`
//!
//! The Rust's time is that of `check` on a module that is already built:
//! neither the reading of the description nor its form, neither the copy of
//! the dialogue plan nor the freeing of the analysis. The port's time is the
//! whole call: form, index, run, report, clearing. The engine's time is the
//! run alone, in a workspace whose index is filled.
//!
//! Times are processor times of the one thread at work, so that other programs
//! on the machine disturb them little.
//!
//! Every description is first compared: answer, steps, every byte of the report.
//! In each round the Rust, the port and the engine have their turn at one
//! description; the best time of each is taken, and summed over a shape.
//! With `cfg(linked)` the port is the static library, without the engine alone.
//! With `--index` the port's call with an index is timed beside the one without,
//! and the lookup of each record through the index beside the walk.

#![allow(unexpected_cfgs)]

mod index_times;
#[cfg(parts)]
mod parts;
#[cfg(linked)]
#[path = "linked.rs"]
mod port;
#[cfg(not(linked))]
mod port;
mod shapes;
#[allow(dead_code)]
mod trial;

use oracle::model::Description;
use oracle::run::{self, Outcome};
use oracle::timing::{Built, now};
use std::process::exit;
use std::time::{Duration, Instant};
use trial::{Bounds, Buffers, differs};

/// Words lent for the queue.
const QUEUE: u64 = 1024;
/// A turn of a round takes about so long.
const TURN: Duration = Duration::from_millis(1);
const LIMIT: u32 = u32::MAX;

struct Case {
    bytes: Vec<u8>,
    built: Built,
    words: usize,
    instructions: usize,
    report: usize,
    steps: u32,
}

/// The description with what it needs, once port and types.rs agree on it.
fn case(bytes: Vec<u8>) -> Result<Case, String> {
    let built = Built::new(&bytes).ok_or("a description of bad form, or one that types.rs does not judge")?;
    let d = Description::decode(&bytes).ok_or("no description")?;
    let words = d.least_words() + QUEUE;
    let outcome = run::check(&bytes, words, usize::MAX, LIMIT);
    let Outcome::Accepted { report, steps } = &outcome else {
        return Err(format!("not accepted: {}", trial::shown(&outcome)));
    };
    let (report, steps) = (report.len(), *steps);
    let bounds = Bounds { words: words as usize, report_len: report, index_len: 0, limit: LIMIT };
    if let Some(answer) = differs(&bytes, &bounds, &outcome, 1, &mut Buffers::default()) {
        return Err(format!("types.rs: {}, port: {answer}", trial::shown(&outcome)));
    }
    let again = built.check();
    if !again.accepted || again.steps != u64::from(steps) {
        return Err("the timed run of types.rs differs".into());
    }
    let instructions = d.chunks.iter().map(|chunk| chunk.code.len()).sum();
    Ok(Case { bytes, built, words: words as usize, instructions, report, steps })
}

/// The best time of each case, summed over all cases.
struct Best {
    rust: Duration,
    port: Duration,
    engine: Option<Duration>,
}

fn rust(case: &Case) -> Duration {
    case.built.check().time
}

fn port(case: &Case, workspace: &mut [u32], report: &mut [u8]) -> Duration {
    let (words, bytes) = (&mut workspace[..case.words], &mut report[..case.report]);
    let start = now();
    let answer = port::check(&case.bytes, words, bytes, LIMIT);
    let time = now() - start;
    assert!(matches!(answer, port::Answer::Accepted { steps, .. } if steps == case.steps));
    time
}

#[cfg(parts)]
fn engine(case: &Case, workspace: &mut [u32]) -> Option<Duration> {
    let (time, steps) = parts::run(&case.bytes, &mut workspace[..case.words], LIMIT);
    assert_eq!(steps, Some(case.steps));
    Some(time)
}
#[cfg(not(parts))]
fn engine(_: &Case, _: &mut [u32]) -> Option<Duration> {
    None
}

/// Two runs to warm up, then the best of some.
fn turn(mut one: impl FnMut() -> Duration) -> Duration {
    one();
    one();
    let start = Instant::now();
    let mut best = one();
    while start.elapsed() < TURN {
        best = best.min(one());
    }
    best
}

fn measure(cases: &[Case], rounds: u64) -> Best {
    let words = cases.iter().map(|case| case.words).max().unwrap_or(0);
    let bytes = cases.iter().map(|case| case.report).max().unwrap_or(0);
    let (mut workspace, mut report) = (vec![0u32; words], vec![0u8; bytes]);
    let mut best = Best { rust: Duration::ZERO, port: Duration::ZERO, engine: None };
    for case in cases {
        let mut least = [Duration::MAX; 3];
        for _ in 0..rounds {
            least[0] = least[0].min(turn(|| rust(case)));
            least[1] = least[1].min(turn(|| port(case, &mut workspace, &mut report)));
            if cfg!(parts) {
                least[2] = least[2].min(turn(|| engine(case, &mut workspace).unwrap_or_default()));
            }
        }
        best.rust += least[0];
        best.port += least[1];
        if cfg!(parts) {
            best.engine = Some(best.engine.unwrap_or_default() + least[2]);
        }
    }
    best
}

/// Nanoseconds for each of so many.
fn each(time: Duration, count: f64) -> f64 {
    time.as_nanos() as f64 / count
}

fn show(name: &str, cases: &[Case], best: &Best) {
    let number = cases.len() as f64;
    let takings: f64 = cases.iter().map(|case| f64::from(case.steps)).sum();
    let shown = |count: f64, places: usize| {
        let engine = best.engine.map_or("-".into(), |time| format!("{:.places$}", each(time, count)));
        format!("{:>12.places$} {:>12.places$} {engine:>12}", each(best.rust, count), each(best.port, count))
    };
    let ratio = |other: Duration| best.rust.as_secs_f64() / other.as_secs_f64();
    let engine = best.engine.map_or("-".into(), |time| format!("{:.2}", ratio(time)));
    println!("{name:<16} description {} {:>9.2} {engine:>9}", shown(number, 0), ratio(best.port));
    println!("{:<16} taking      {}", "", shown(takings, 1));
}

/// The cases of each shape, each line with their sums.
fn made(seed: u64) -> Vec<(&'static str, Vec<Case>)> {
    println!("{:<16} {:>12} {:>12} {:>9} {:>9} {:>10}", "shape", "descriptions", "instructions", "takings", "words", "report");
    let mut groups = Vec::new();
    for group in shapes::all(seed) {
        let mut cases = Vec::new();
        for bytes in group.descriptions {
            match case(bytes) {
                Ok(case) => cases.push(case),
                Err(why) => {
                    println!("{}: {why}", group.name);
                    exit(1);
                }
            }
        }
        let sum = |of: fn(&Case) -> usize| cases.iter().map(of).sum::<usize>();
        println!(
            "{:<16} {:>12} {:>12} {:>9} {:>9} {:>10}",
            group.name, cases.len(), sum(|c| c.instructions), sum(|c| c.steps as usize), sum(|c| c.words), sum(|c| c.report)
        );
        groups.push((group.name, cases));
    }
    groups
}

fn main() {
    let index = std::env::args().nth(1).is_some_and(|text| text == "--index");
    let told = 1 + usize::from(index);
    let args: Vec<u64> = std::env::args().skip(told).map_while(|text| text.parse().ok()).collect();
    if args.len() > 2 || args.len() != std::env::args().len() - told {
        eprintln!("bench [--index] [ROUNDS] [SEED]");
        exit(2);
    }
    let rounds = args.first().copied().unwrap_or(10).max(1);
    let seed = args.get(1).copied().unwrap_or(1);
    println!("seed {seed}, {rounds} rounds");
    let groups = made(seed);
    println!("port and types.rs agree on all");
    println!();
    if index {
        return index_times::show(&groups, rounds);
    }
    println!("{:<16} {:<11} {:>12} {:>12} {:>12} {:>9} {:>9}", "", "ns for a", "types.rs", "port", "engine", "Rust/port", "Rust/eng.");
    for (name, cases) in &groups {
        show(name, cases, &measure(cases, rounds));
    }
}
