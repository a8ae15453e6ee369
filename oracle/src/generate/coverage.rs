//! What generated descriptions reach: instructions and outcomes, counted.

use crate::description::Op;
use crate::model::{Description, at16, split_field};
use crate::report::GUARDS_AT;
use crate::run::Outcome;

#[derive(Debug, Clone)]
pub struct Coverage {
    pub descriptions: u64,
    /// Those that another text judges; no other count has them.
    pub left_out: u64,
    /// Outcomes by refusal number, 0 for accepted.
    pub outcomes: [u64; 19],
    /// Descriptions that have the instruction; accepted ones that have it;
    /// accepted ones with a record of it; with a guard in such a record; with
    /// two or more, where their order shows.
    pub present: [u64; 66],
    pub accepted: [u64; 66],
    pub recorded: [u64; 66],
    pub guarded: [u64; 66],
    pub ordered: [u64; 66],
}

impl Default for Coverage {
    fn default() -> Self {
        let none = [0; 66];
        Coverage {
            descriptions: 0,
            left_out: 0,
            outcomes: [0; 19],
            present: none,
            accepted: none,
            recorded: none,
            guarded: none,
            ordered: none,
        }
    }
}

fn count(counts: &mut [u64; 66], set: u128) {
    for (op, count) in counts.iter_mut().enumerate() {
        *count += u64::from(set >> op & 1 == 1);
    }
}

impl Coverage {
    /// Whether what the text says of these bytes is to be used; else they are
    /// counted as left out. Bytes that are no description always are: the form
    /// check refuses them, and no text sees them.
    pub fn includes(&mut self, bytes: &[u8], judged: impl Fn(&Description) -> bool) -> bool {
        let included = Description::decode(bytes).is_none_or(|d| judged(&d));
        self.left_out += u64::from(!included);
        included
    }

    pub fn add(&mut self, bytes: &[u8], outcome: &Outcome) {
        self.descriptions += 1;
        self.outcomes[usize::from(outcome.number())] += 1;
        let Some(d) = Description::decode(bytes) else { return };
        let mut present = 0u128;
        for i in d.chunks.iter().flat_map(|chunk| &chunk.code) {
            if i.op < 66 {
                present |= 1 << i.op;
            }
        }
        count(&mut self.present, present);
        let Outcome::Accepted { report, .. } = outcome else { return };
        count(&mut self.accepted, present);
        let (mut recorded, mut guarded, mut ordered) = (0u128, 0u128, 0u128);
        let mut rest = &report[..];
        while let Some((tag, contents, after)) = split_field(rest) {
            rest = after;
            if tag == 19 {
                let place = |at: usize| usize::from(at16(contents, at));
                let op = d.chunks[place(0)].code[place(2)].op;
                let guards = at16(contents, GUARDS_AT);
                recorded |= 1 << op;
                guarded |= u128::from(guards > 0) << op;
                ordered |= u128::from(guards > 1) << op;
            }
        }
        count(&mut self.recorded, recorded);
        count(&mut self.guarded, guarded);
        count(&mut self.ordered, ordered);
    }

    pub fn join(&mut self, other: &Coverage) {
        self.descriptions += other.descriptions;
        self.left_out += other.left_out;
        let add = |a: &mut [u64], b: &[u64]| a.iter_mut().zip(b).for_each(|(a, b)| *a += b);
        add(&mut self.outcomes, &other.outcomes);
        add(&mut self.present, &other.present);
        add(&mut self.accepted, &other.accepted);
        add(&mut self.recorded, &other.recorded);
        add(&mut self.guarded, &other.guarded);
        add(&mut self.ordered, &other.ordered);
    }

    /// Two Markdown tables.
    pub fn table(&self) -> String {
        let mut out = String::from("| outcome | descriptions |\n|---|---|\n");
        for (number, count) in self.outcomes.iter().enumerate() {
            let name = if number == 0 { "accepted".to_string() } else { format!("refused {number}") };
            out += &format!("| {name} | {count} |\n");
        }
        out += &format!("| all | {} |\n", self.descriptions);
        out += &format!("| left out by intention | {} |\n\n", self.left_out);
        out += "| instruction | in descriptions | in accepted ones | recorded in accepted ones | with a guard | with two or more |\n";
        out += "|---|---|---|---|---|---|\n";
        for op in 0..66 {
            let (present, accepted, recorded) = (self.present[op], self.accepted[op], self.recorded[op]);
            let (guarded, ordered) = (self.guarded[op], self.ordered[op]);
            out += &format!("| {} | {present} | {accepted} | {recorded} | {guarded} | {ordered} |\n", Op::NAMES[op]);
        }
        out
    }
}

/// Generates and runs so many descriptions, and counts what is judged of them.
pub fn over(count: u64, run: u64, judged: impl Fn(&Description) -> bool) -> Coverage {
    let mut coverage = Coverage::default();
    for number in 0..count {
        let (one, measured) = super::with_measure(super::seed_of(run, number));
        if coverage.includes(&one.bytes, &judged) {
            coverage.add(&one.bytes, &super::outcome(&one, &measured));
        }
    }
    coverage
}
