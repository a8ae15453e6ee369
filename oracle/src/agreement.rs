//! Small reports and indexes, whole, damaged and at random, given to the port's
//! lookup through an index and held against index.rs.

use crate::indexed::{in_order, odd_index, sought_differs};
use crate::trial::{odd_report, pair};
use oracle::description::text_to_bytes;
use oracle::generate::random::Random;
use oracle::generate::{generate, seed_of};
use oracle::index::{ENTRY, agrees, entries};
use oracle::run::{Outcome, check};

const WORKED: &str = include_str!("../examples/worked.txt");
/// How many generated reports have each of their bits turned, and how long one
/// may be.
const REPORTS: usize = 12;
const LONGEST: usize = 1500;
/// The comparison ends after so many differences.
const MOST: usize = 10;

/// What was compared.
pub struct Agreement {
    r: Random,
    /// Reports with an index; and those that agree.
    pub compared: u64,
    pub agreeing: u64,
    pub differences: Vec<String>,
}

impl Agreement {
    /// A place of a record and another are looked up.
    fn hold(&mut self, report: &[u8], index: &[u8]) {
        if self.differences.len() >= MOST {
            return;
        }
        self.compared += 1;
        self.agreeing += u64::from(agrees(report, index));
        let recorded = entries(report);
        let (report, index): (Box<[u8]>, Box<[u8]>) = (report.into(), index.into());
        let found = [true, false].into_iter().find_map(|of_record| {
            let place = pair(of_record, &recorded, &mut self.r);
            sought_differs(&report, &index, place)
        });
        self.differences.extend(found);
    }

    /// A report with its index in order, and one of the two damaged.
    fn hold_damaged(&mut self, report: &[u8]) {
        let own = in_order(&entries(report));
        self.hold(report, &own);
        let others = cut(&own).chain(left_over(&own)).chain(exchanged(&own));
        for index in turned(&own).chain(with_one_more(&own)).chain(others) {
            self.hold(report, &index);
        }
        for other in turned(report).chain(cut(report)) {
            self.hold(&other, &own);
            self.hold(&other, &in_order(&entries(&other)));
        }
    }
}

/// The small reports, and so many at random with an index each.
pub fn compare(count: u64, seed: u64) -> Agreement {
    let mut all = Agreement { r: Random::new(seed), compared: 0, agreeing: 0, differences: Vec::new() };
    for report in by_hand().into_iter().chain([worked()]).chain(generated(seed)) {
        all.hold_damaged(&report);
    }
    for _ in 0..count {
        let report = odd_report(&[], &mut all.r);
        let listed = entries(&report);
        // The walk's own order is wrong where the records don't rise.
        let own = if all.r.often(800) { in_order(&listed) } else { oracle::index::bytes(&listed) };
        if all.r.often(500) {
            all.hold(&report, &own);
        } else {
            let index = odd_index(&own, &mut all.r);
            all.hold(&report, &index);
        }
    }
    all
}

/// Reports by hand: records that rise, fall, stand twice, are too short for a
/// place, stand between other fields, overrun.
fn by_hand() -> Vec<Vec<u8>> {
    let record = |instruction: u8, more: &[u8]| [&[19, 4 + more.len() as u8, 0, 0, 0, instruction, 0], more].concat();
    let later = [19, 4, 0, 1, 0, 0, 0];
    let other = [16, 4, 0, 0, 0, 0, 0];
    vec![
        vec![],
        other.to_vec(),
        record(0, &[]),
        [record(0, &[]), record(0, &[])].concat(),
        [record(1, &[]), record(0, &[])].concat(),
        [record(0, &[]), record(1, &[9])].concat(),
        [&later[..], &record(5, &[]), &record(3, &[])].concat(),
        vec![19, 3, 0, 0, 0, 0],
        [&[19, 3, 0, 0, 0, 0][..], &record(2, &[])].concat(),
        [&other[..], &record(0, &[7, 7]), &[17, 2, 0, 1, 1], &record(2, &[]), &later].concat(),
        [&record(0, &[])[..], &[19, 5, 0, 0, 0, 1, 0]].concat(),
        [&record(0, &[])[..], &[19, 4]].concat(),
    ]
}

fn worked() -> Vec<u8> {
    let bytes = text_to_bytes(WORKED).expect("the example parses");
    match check(&bytes, 16384, 16384, 1_000_000) {
        Outcome::Accepted { report, .. } => report,
        Outcome::Refused(_) => panic!("the worked example is accepted"),
    }
}

/// The first generated reports that are short enough and have a record.
fn generated(seed: u64) -> impl Iterator<Item = Vec<u8>> {
    let reports = (0..).filter_map(move |number| {
        let one = generate(seed_of(seed, number));
        match check(&one.bytes, one.words, one.report_len, one.limit) {
            Outcome::Accepted { report, .. } => Some(report),
            Outcome::Refused(_) => None,
        }
    });
    reports.filter(|report| report.len() <= LONGEST && !entries(report).is_empty()).take(REPORTS)
}

/// The bytes with each bit turned.
fn turned(bytes: &[u8]) -> impl Iterator<Item = Vec<u8>> {
    (0..8 * bytes.len()).map(|bit| {
        let mut out = bytes.to_vec();
        out[bit / 8] ^= 1 << (bit % 8);
        out
    })
}

/// The bytes cut at each place.
fn cut(bytes: &[u8]) -> impl Iterator<Item = Vec<u8>> {
    (0..bytes.len()).map(|end| bytes[..end].to_vec())
}

/// The index with some bytes more, too few for an entry.
fn left_over(index: &[u8]) -> impl Iterator<Item = Vec<u8>> {
    let with = move |more: &[u8]| [index, more].concat();
    (1..ENTRY).flat_map(move |more| [with(&[0; ENTRY][..more]), with(&[255; ENTRY][..more])])
}

/// The index with one entry more at each place: one that it has, one of zeros,
/// one of the largest numbers, or the last one's with the next instruction.
fn with_one_more(index: &[u8]) -> impl Iterator<Item = Vec<u8>> {
    let mut more: Vec<[u8; ENTRY]> = index.as_chunks().0.to_vec();
    let mut next = more.last().copied().unwrap_or_default();
    next[2] = next[2].wrapping_add(1);
    more.extend([[0; ENTRY], [255; ENTRY], next]);
    (0..=index.len() / ENTRY).flat_map(move |number| {
        let (before, after) = index.split_at(ENTRY * number);
        more.clone().into_iter().map(move |entry| [before, &entry, after].concat())
    })
}

/// The index with each two neighbours exchanged.
fn exchanged(index: &[u8]) -> impl Iterator<Item = Vec<u8>> {
    (1..index.len() / ENTRY).map(|number| {
        let mut all: Vec<&[u8]> = index.chunks(ENTRY).collect();
        all.swap(number - 1, number);
        all.concat()
    })
}
