//! The index beside a report and the agreement of the two, worked by hand.

use oracle::index::{ENTRY, Entry, agrees, bytes, entries, lookup_indexed, read};
use oracle::lookup::lookup;
use oracle::model::Description;
use oracle::run::{Outcome, check};

/// The report of an example.
fn report_of(name: &str) -> Vec<u8> {
    let folder = std::env::var("ORACLE_DIR").expect("ORACLE_DIR");
    let path = format!("{folder}/examples/{name}.txt");
    let d = Description::from_text(&std::fs::read_to_string(&path).expect(&path)).expect("the example parses");
    let Outcome::Accepted { report, .. } = check(&d.encode(), 16384, 16384, 1_000_000) else { panic!("accepted") };
    report
}

/// A record of chunk 0 with four bytes of contents.
fn record(instruction: u8) -> [u8; 7] {
    [19, 4, 0, 0, 0, instruction, 0]
}

/// An entry with such numbers.
fn entry(chunk: u8, instruction: u8, first: u8, length: u8) -> [u8; ENTRY] {
    [chunk, 0, instruction, 0, first, 0, 0, 0, length, 0, 0, 0]
}

#[test]
fn the_worked_index_byte_by_byte() {
    let report = report_of("worked");
    let index = [entry(0, 0, 61, 66), entry(0, 1, 127, 115), entry(0, 2, 242, 64)].concat();
    assert_eq!(bytes(&entries(&report)), index);
    assert_eq!(index[..ENTRY], [0, 0, 0, 0, 61, 0, 0, 0, 66, 0, 0, 0]);
    assert_eq!(index.len(), 36);
    assert_eq!(lookup_indexed(&report, &index, 0, 2), Some(&report[242..]));
    assert_eq!(lookup_indexed(&report, &index, 0, 3), Some(&report[306..]));
}

#[test]
fn every_bit_and_every_cut_of_the_worked_index_disagrees() {
    let report = report_of("worked");
    let index = bytes(&entries(&report));
    assert!(agrees(&report, &index));
    for bit in 0..8 * index.len() {
        let mut turned = index.clone();
        turned[bit / 8] ^= 1 << (bit % 8);
        assert!(!agrees(&report, &turned), "bit {bit}");
    }
    for end in 0..index.len() {
        assert!(!agrees(&report, &index[..end]), "{end} bytes");
    }
    for more in 1..=ENTRY {
        assert!(!agrees(&report, &[&index[..], &vec![0; more]].concat()), "{more} bytes more");
    }
    for more in [entry(0, 3, 50, 15), entry(0, 2, 242, 64), entry(9, 9, 0, 0)] {
        assert!(!agrees(&report, &[&index[..], &more].concat()), "{more:?}");
    }
}

#[test]
fn numbers_have_all_their_bytes() {
    let one = Entry { chunk: 0x0201, instruction: 0x0403, first: 0x0807_0605, length: 0x0c0b_0a09 };
    assert_eq!(bytes(&[one]), [1, 2, 3, 4, 5, 6, 7, 8, 9, 10, 11, 12]);
    assert_eq!(read(&[1, 2, 3, 4, 5, 6, 7, 8, 9, 10, 11, 12]), Some(vec![one]));
    assert_eq!(read(&[1, 2, 3, 4, 5, 6, 7, 8, 9, 10, 11]), None);
    assert_eq!(read(&[]), Some(vec![]));
}

#[test]
fn what_has_an_entry() {
    let listed = |report: &[u8]| bytes(&entries(report));
    assert_eq!(listed(&[]), []);
    assert_eq!(listed(&[19, 3, 0, 0, 0, 0]), []);
    assert_eq!(listed(&[20, 4, 0, 0, 0, 0, 0]), []);
    assert_eq!(listed(&record(5)), entry(0, 5, 0, 7));
    // Between other fields, longer than four bytes.
    let report = [&[16, 1, 0, 9][..], &[19, 6, 0, 2, 0, 3, 0, 8, 8], &[19, 0, 0], &record(1)].concat();
    assert_eq!(listed(&report), [entry(2, 3, 4, 9), entry(0, 1, 16, 7)].concat());
    // A field that overruns ends the walk, whatever its tag.
    assert_eq!(listed(&[&record(0)[..], &[19, 5, 0, 0, 0, 1, 0]].concat()), entry(0, 0, 0, 7));
    assert_eq!(listed(&[&record(0)[..], &[16, 8, 0], &record(1)].concat()), entry(0, 0, 0, 7));
    assert_eq!(listed(&[&record(0)[..], &[19, 4]].concat()), entry(0, 0, 0, 7));
}

#[test]
fn records_that_do_not_rise() {
    let falling = [record(1), record(0)].concat();
    let (one, nought) = (entry(0, 1, 0, 7), entry(0, 0, 7, 7));
    assert!(agrees(&falling, &[nought, one].concat()));
    assert!(!agrees(&falling, &[one, nought].concat()));
    assert_eq!(lookup_indexed(&falling, &[nought, one].concat(), 0, 0), Some(&falling[7..]));
    assert_eq!(lookup_indexed(&falling, &[one, nought].concat(), 0, 0), None);

    let twice = [record(0), record(0)].concat();
    let (first, second) = (entry(0, 0, 0, 7), entry(0, 0, 7, 7));
    for index in [&[][..], &first, &second, &[first, second].concat(), &[second, first].concat()] {
        assert!(!agrees(&twice, index), "{index:?}");
    }
}

#[test]
fn reports_without_records() {
    for report in [&[][..], &[19, 3, 0, 0, 0, 0], &[16, 4, 0, 0, 0, 0, 0], &[19, 4, 0, 0, 0]] {
        assert!(agrees(report, &[]), "{report:?}");
        assert_eq!(lookup_indexed(report, &[], 0, 0), Some(lookup(report, 0, 0)));
        assert!(!agrees(report, &[0]), "{report:?}");
        assert!(!agrees(report, &entry(0, 0, 0, 7)), "{report:?}");
    }
}
