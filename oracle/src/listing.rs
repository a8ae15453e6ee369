//! Document 01's listing of an outcome.

use crate::model::{Take, at16, split_field};
use crate::run::Outcome;

pub fn listing(outcome: &Outcome) -> String {
    let (report, steps) = match outcome {
        Outcome::Refused(r) => {
            return format!("refused {} {} {} {}\n", r.number, r.chunk, r.instruction, r.steps);
        }
        Outcome::Accepted { report, steps } => (report, steps),
    };
    let mut out = String::new();
    let mut rest = &report[..];
    while let Some((tag, contents, after)) = split_field(rest) {
        rest = after;
        let line = fields(tag, contents, *steps).expect("a report's field");
        out += &line;
    }
    out
}

fn fields(tag: u8, contents: &[u8], steps: u32) -> Option<String> {
    let mut take = Take(contents);
    Some(match tag {
        16 => format!("accepted {steps} reply {}\n", take.u32()?),
        19 => {
            let (chunk, instruction) = (take.u16()?, take.u16()?);
            let (stack, locals) = (take.u16()?, take.u16()?);
            let cells = &contents[12..];
            let masks = |from: u16, count: u16| {
                let mask = |k: u16| {
                    let at = 49 * usize::from(from + k);
                    at16(cells, at).to_string()
                };
                let all: Vec<String> = (0..count).map(mask).collect();
                if all.is_empty() { "-".to_string() } else { all.join(" ") }
            };
            let (stack, locals) = (masks(0, stack), masks(stack, locals));
            format!("{chunk} {instruction} stack {stack} locals {locals}\n")
        }
        20 => format!("inspection {} {}\n", take.u16()?, take.u16()?),
        21 => format!("branch {} {} {}\n", take.u16()?, take.u16()?, take.u8()?),
        _ => String::new(),
    })
}
