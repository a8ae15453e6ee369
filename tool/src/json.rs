//! The answer and the report as JSON.

use crate::facts::Facts;
use crate::lend::{Accepted, Lent};
use crate::show::BODIES;
use genduvo::report::{Cell, Extent, Field, Record, Width};
use genduvo::{Mask, Refusal};
use std::io::{self, Write};
use std::iter::Peekable;

/// A string with quotes, escaped.
pub fn string(text: &str) -> String {
    let mut out = String::from('"');
    for sign in text.chars() {
        match sign {
            '"' => out += "\\\"",
            '\\' => out += "\\\\",
            '\n' => out += "\\n",
            '\r' => out += "\\r",
            '\t' => out += "\\t",
            control if control < ' ' => out += &format!("\\u{:04x}", u32::from(control)),
            other => out.push(other),
        }
    }
    out.push('"');
    out
}

fn list(parts: impl IntoIterator<Item = String>) -> String {
    format!("[{}]", parts.into_iter().collect::<Vec<_>>().join(","))
}

fn optional<T>(value: Option<T>, one: impl Fn(T) -> String) -> String {
    value.map_or("null".to_string(), one)
}

fn mask(mask: Mask) -> String {
    format!("\"mask\":{},\"kinds\":{}", mask.bits(), list(mask.names().map(string)))
}

fn width(width: Width) -> String {
    match width {
        Width::Unknown => "null".to_string(),
        Width::Scalar(bytes) => format!("{{\"scalar\":{bytes}}}"),
        Width::Body(bytes) => format!("{{\"body\":{bytes}}}"),
    }
}

/// None is an absent extent, both ends null one that isn't known.
fn extent(extent: Extent) -> String {
    match extent {
        Extent::Absent => "null".to_string(),
        Extent::Range { min, max } => format!("{{\"min\":{min},\"max\":{max}}}"),
        Extent::Unknown => "{\"min\":null,\"max\":null}".to_string(),
    }
}

fn cell(cell: &Cell) -> String {
    let extents: Vec<String> = BODIES
        .iter()
        .zip(cell.extents)
        .map(|((_, name), of)| format!("{}:{}", string(&name.to_lowercase()), extent(of)))
        .collect();
    let predicate = optional(cell.predicate, |one| format!("{{\"receiver\":{},\"when\":{}}}", one.receiver, one.when));
    let origin = optional(cell.origin, |local| local.to_string());
    format!(
        "{{{},\"width\":{},\"extents\":{{{}}},\"owned\":{},\"origin\":{origin},\"predicate\":{predicate}}}",
        mask(cell.mask),
        width(cell.width),
        extents.join(","),
        cell.owned,
    )
}

fn cells(all: impl IntoIterator<Item = Cell>) -> String {
    list(all.into_iter().map(|one| cell(&one)))
}

fn record(facts: &Facts, record: Record) -> String {
    let (chunk, instruction) = (record.chunk(), record.instruction());
    let op = facts.instruction(chunk, instruction.into()).op;
    let outputs = record.outputs().iter().map(|one| format!("{{\"slot\":{},\"cell\":{}}}", one.slot, cell(&one.cell)));
    let guards = record.guards().iter().map(|one| format!("{{\"place\":{},{}}}", one.place, mask(one.mask)));
    format!(
        "{{\"chunk\":{chunk},\"instruction\":{instruction},\"op\":{},\"stack\":{},\"locals\":{},\"outputs\":{},\"guards\":{}}}",
        string(&op.to_string()),
        cells(record.stack().iter()),
        cells(record.locals().iter()),
        list(outputs),
        list(guards),
    )
}

/// One field of the report, with the name of its list.
fn field(facts: &Facts, field: Field) -> (&'static str, String) {
    match field {
        Field::Reply(bytes) => ("reply", bytes.to_string()),
        Field::Signature(one) => {
            let (inputs, result) = (cells(one.inputs().iter()), cell(&one.result()));
            ("signatures", format!("{{\"chunk\":{},\"inputs\":{inputs},\"result\":{result}}}", one.chunk()))
        }
        Field::Slot(one) => ("slots", cell(&one)),
        Field::Record(one) => ("records", record(facts, one)),
        Field::Inspection(one) => {
            ("inspections", format!("{{\"chunk\":{},\"instruction\":{}}}", one.chunk, one.instruction))
        }
        Field::Branch(one) => {
            let (chunk, instruction, value) = (one.chunk, one.instruction, one.value);
            ("branches", format!("{{\"chunk\":{chunk},\"instruction\":{instruction},\"value\":{value}}}"))
        }
    }
}

/// The lists of a report, in the order of their tags; all are there, also the empty ones.
const LISTS: [&str; 5] = ["signatures", "slots", "records", "inspections", "branches"];

/// Writes an accepted answer and its report, a line for each field.
pub fn accepted(out: &mut impl Write, facts: &Facts, accepted: &Accepted) -> io::Result<()> {
    let (steps, bytes, words) = (accepted.steps, accepted.report.len(), accepted.lent.words);
    write!(
        out,
        "{{\"answer\":{{\"accepted\":true,\"steps\":{steps},\"report_bytes\":{bytes},\"words_lent\":{words}}},"
    )?;
    write!(out, "\n\"reply\":{}", facts.report.reply())?;
    // The reply is the first field.
    let mut fields = facts.report.fields().skip(1).map(|one| field(facts, one)).peekable();
    LISTS.iter().try_for_each(|name| named_list(out, name, &mut fields))?;
    writeln!(out, "}}")
}

/// Writes the fields of one list, as far as they stand together.
fn named_list(
    out: &mut impl Write,
    name: &str,
    fields: &mut Peekable<impl Iterator<Item = (&'static str, String)>>,
) -> io::Result<()> {
    write!(out, ",\n{}:[", string(name))?;
    let mut between = "\n";
    while let Some((_, text)) = fields.next_if(|(of, _)| *of == name) {
        write!(out, "{between}{text}")?;
        between = ",\n";
    }
    write!(out, "]")
}

/// Writes a refusal.
pub fn refused(out: &mut impl Write, refusal: &Refusal, lent: Option<Lent>) -> io::Result<()> {
    let Refusal { reason, chunk, instruction, steps } = refusal;
    let place = |value: &Option<u16>| optional(*value, |number| number.to_string());
    let words = optional(lent, |lent| format!("{{\"words\":{},\"report_bytes\":{}}}", lent.words, lent.report));
    writeln!(
        out,
        "{{\"answer\":{{\"accepted\":false,\"number\":{},\"by\":{},\"meaning\":{},\"chunk\":{},\"instruction\":{},\"steps\":{steps},\"lent\":{words}}}}}",
        reason.number(),
        string(&reason.by().to_string()),
        string(reason.meaning()),
        place(chunk),
        place(instruction),
    )
}

#[cfg(test)]
mod tests {
    use super::string;

    #[test]
    fn strings_are_escaped() {
        assert_eq!(string("a\"b\\c\nd\u{1}"), "\"a\\\"b\\\\c\\nd\\u0001\"");
    }
}
