//! Refusals 5 to 8: what was lent, and what to do.

use crate::lend::{Bounds, Lent};
use crate::show::grouped;
use genduvo::{Reason, Refusal};
use std::io::{self, Write};

/// Writes what was lent and what would help.
pub fn write(out: &mut impl Write, refusal: &Refusal, lent: Option<Lent>, bounds: &Bounds) -> io::Result<()> {
    if let Some(lent) = lent {
        let [words, least, report, bound] =
            [lent.words, lent.sizes.words, lent.report, lent.sizes.report].map(|size| grouped(size as u64));
        writeln!(out, "  lent: a workspace of {words} words, of which {least} are the least,")?;
        writeln!(out, "  and a report buffer of {report} bytes; no report of this description has more than {bound}")?;
    }
    writeln!(out, "  {}", advice(refusal.reason, lent, bounds))
}

/// What to do, for a command line.
pub fn advice(reason: Reason, lent: Option<Lent>, bounds: &Bounds) -> String {
    let memory = grouped(bounds.memory);
    let enough = lent.map_or(String::new(), |lent| format!(", {} are enough for both", grouped(lent.enough())));
    match reason {
        Reason::LimitUsedUp => {
            let limit = grouped(bounds.limit.into());
            format!("the limit is {limit} steps: allow more with --limit N, at most {}", grouped(u32::MAX.into()))
        }
        Reason::QueueFull => format!("--memory allows {memory} bytes: allow more, each word of 4 is room for an entry"),
        _ => format!("--memory allows {memory} bytes: allow more{enough}"),
    }
}
