//! The form walk against the library's own answer: number, chunk and instruction.

mod common;

use genduvo::description::text_to_bytes;
use genduvo_tool::form::{first_fault, value};

/// Number, chunk and instruction of a refusal.
type Place = (u8, Option<u16>, Option<u16>);

/// What the library and the walk say of these bytes.
fn both(bytes: &[u8]) -> [Option<Place>; 2] {
    let library = genduvo::words(bytes).err().map(|one| (one.reason.number(), one.chunk, one.instruction));
    let walk = first_fault(bytes).map(|one| (one.number, one.chunk, one.instruction));
    [library, walk]
}

fn agree(bytes: &[u8], of: &str) {
    let [library, walk] = both(bytes);
    assert_eq!(library, walk, "{of}: {:02x?}", &bytes[..bytes.len().min(200)]);
}

fn bytes_of(file: &str) -> Vec<u8> {
    let path = common::top().join(file);
    if file.ends_with(".bin") {
        return std::fs::read(path).expect("a file");
    }
    text_to_bytes(&std::fs::read_to_string(path).expect("a file")).expect("a text")
}

#[test]
fn every_one_byte_change() {
    let files = [
        "examples/worked.bin",
        "examples/handle-4.bin",
        "oracle/examples/stream.txt",
        "oracle/examples/placements.txt",
        "oracle/examples/native.txt",
        "oracle/examples/private.txt",
    ];
    for file in files {
        let bytes = bytes_of(file);
        for at in 0..bytes.len() {
            let mut changed = bytes.clone();
            for value in 0..=255 {
                changed[at] = value;
                agree(&changed, file);
            }
        }
    }
}

#[test]
fn every_cut() {
    for file in common::texts() {
        let bytes = bytes_of(&file);
        for length in 0..=bytes.len() {
            agree(&bytes[..length], &file);
        }
    }
}

#[test]
fn descriptions_of_good_form_have_no_fault() {
    for file in common::files("oracle/examples", ".txt") {
        assert_eq!(first_fault(&bytes_of(&file)), None, "{file}");
    }
}

#[test]
fn longer_than_the_longest() {
    let long = vec![0; genduvo::LONGEST + 1];
    agree(&long, "one byte too many");
    agree(&long[1..], "as many as may be");
}

/// Takes numbers off the list of crates/formreplay; oracle/src/formlist.rs has its form.
struct List<'a>(&'a [u8]);

impl<'a> List<'a> {
    fn take(&mut self, count: usize) -> &'a [u8] {
        let (first, rest) = self.0.split_at(count);
        self.0 = rest;
        first
    }

    fn number(&mut self, size: usize) -> usize {
        self.take(size).iter().rev().fold(0, |value, byte| value << 8 | usize::from(*byte))
    }

    /// The next description, and the number, chunk and instruction of its answer.
    fn entry(&mut self, base: &mut Vec<u8>) -> (Vec<u8>, [usize; 3]) {
        let becomes = self.number(1) == 1;
        let (at, dropped) = (self.number(4), self.number(4));
        let (size, times) = (self.number(2), self.number(4));
        let put = self.take(size);
        let mut made = base[..at].to_vec();
        made.extend(std::iter::repeat_n(put, times).flatten());
        made.extend_from_slice(&base[at + dropped..]);
        let answer = [self.number(1), self.number(2), self.number(2)];
        self.take(8);
        if becomes {
            base.clone_from(&made);
        }
        (made, answer)
    }
}

#[test]
fn the_list_at_the_bounds_of_good_form() {
    const NOWHERE: usize = 65535;
    const COUNT: usize = 6_373;
    let file = std::fs::read(common::top().join("crates/formreplay/stdin")).expect("the list");
    let mut list = List(&file);
    let mut base = Vec::new();
    let mut count = 0;
    while !list.0.is_empty() {
        let (bytes, stored) = list.entry(&mut base);
        agree(&bytes, "the list");
        let place = |value: Option<u16>| value.map_or(NOWHERE, usize::from);
        let found = first_fault(&bytes)
            .map_or([0, NOWHERE, NOWHERE], |fault| [fault.number.into(), place(fault.chunk), place(fault.instruction)]);
        assert_eq!(found, stored, "entry {count}");
        count += 1;
    }
    assert_eq!(count, COUNT);
}

/// The bytes that are named are inside the description, and every fault has a rule.
#[test]
fn every_fault_is_said() {
    let bytes = bytes_of("oracle/examples/stream.txt");
    for at in 0..bytes.len() {
        let mut changed = bytes.clone();
        changed[at] ^= 0x5a;
        let Some(fault) = first_fault(&changed) else { continue };
        assert!(fault.at + fault.size <= changed.len(), "{fault:?}");
        assert!(!fault.rule.is_empty() && !fault.part.is_empty(), "{fault:?}");
        assert!(fault.size == 0 || value(&changed, &fault).is_some(), "{fault:?}");
    }
}
