//! Descriptions changed at random are answered, whatever becomes of them: what is refused is explained by the refusal's
//! own number, what is accepted is listed, drawn and written as JSON.

mod common;

use genduvo::description::Description;
use genduvo_tool::facts::Facts;
use genduvo_tool::lend::{Accepted, Bounds, Outcome, analyse};
use genduvo_tool::{dot, explain, json, list};
use std::collections::BTreeMap;

const BOUNDS: Bounds = Bounds { limit: 100_000, memory: 64 << 20 };
const COUNT: usize = 4_000;

/// A generator of numbers (xorshift) with a seed of its own, so that each run has the same.
struct Numbers(u64);

impl Numbers {
    fn below(&mut self, bound: usize) -> usize {
        self.0 ^= self.0 << 13;
        self.0 ^= self.0 >> 7;
        self.0 ^= self.0 << 17;
        (self.0 % bound as u64) as usize
    }

    /// One to three bytes changed, half of them to numbers that often mean something.
    fn change(&mut self, bytes: &mut [u8]) {
        const TELLING: [u8; 11] = [0, 1, 2, 3, 4, 5, 8, 16, 31, 64, 255];
        for _ in 0..=self.below(3) {
            let at = self.below(bytes.len());
            bytes[at] = if self.below(2) == 0 { TELLING[self.below(TELLING.len())] } else { self.below(256) as u8 };
        }
    }
}

/// Everything that is written of an accepted description.
fn written(bytes: &[u8], accepted: &Accepted) -> Vec<u8> {
    let d = Description::from_bytes(bytes).expect("an accepted description");
    let facts = Facts::new(&d, &accepted.report).expect("a report");
    let numbers = facts.numbers(None).expect("all chunks");
    let mut out = Vec::new();
    list::write(&mut out, &facts, accepted, &numbers).expect("a listing");
    dot::write(&mut out, &facts, &numbers).expect("a graph");
    json::accepted(&mut out, &facts, accepted).expect("JSON");
    out
}

fn explained(bytes: &[u8]) -> String {
    let mut out = Vec::new();
    explain::write(&mut out, bytes, &BOUNDS).expect("an explanation");
    String::from_utf8(out).expect("text")
}

#[test]
fn changed_descriptions_are_answered() {
    let all = common::replayed();
    let mut numbers = Numbers(0x9e37_79b9_7f4a_7c15);
    let mut seen: BTreeMap<u8, usize> = BTreeMap::new();
    for _ in 0..COUNT {
        let mut bytes = all[numbers.below(all.len())].clone();
        numbers.change(&mut bytes);
        let number = match analyse(&bytes, &BOUNDS).expect("an answer") {
            Outcome::Accepted(accepted) => {
                assert!(!written(&bytes, &accepted).is_empty());
                0
            }
            Outcome::Refused(refusal, _) => {
                let (number, text) = (refusal.reason.number(), explained(&bytes));
                assert!(text.starts_with(&format!("refused {number} (")), "{text}");
                assert!(!text.contains("doesn't find the cause"), "{text}");
                number
            }
        };
        *seen.entry(number).or_default() += 1;
    }
    assert!([0, 1, 2, 3, 4, 9, 10, 11, 12, 13].iter().all(|number| seen.contains_key(number)), "{seen:?}");
}
