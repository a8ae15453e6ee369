//! The listing: chunks, instructions, slots, with names.

use crate::facts::Facts;
use crate::flow::{Source, sources};
use crate::lend::Accepted;
use crate::show::{self, counted, grouped};
use genduvo::Mask;
use genduvo::description::{Chunk, Description, Instruction};
use genduvo::report::Record;
use std::io::{self, Write};

/// Columns are padded to their widest part, but not further than this.
const WIDEST_NAME: usize = 40;
const WIDEST_STACK: usize = 50;
const WIDEST_LOCALS: usize = 36;

/// What a line of the listing has.
struct Line {
    number: usize,
    name: String,
    /// None where the instruction is never reached.
    state: Option<State>,
    unreached: &'static str,
}

struct State {
    stack: String,
    locals: String,
    gives: String,
    marks: String,
}

/// Writes the listing of some chunks; the slots follow where all chunks are listed.
pub fn write(out: &mut impl Write, facts: &Facts, accepted: &Accepted, numbers: &[u16]) -> io::Result<()> {
    let Description { header, chunks, .. } = facts.description;
    let (steps, bytes) = (counted(accepted.steps.into(), "step"), counted(accepted.report.len() as u64, "byte"));
    let count = counted(chunks.len() as u64, "chunk");
    writeln!(out, "accepted: {steps}, a report of {bytes}; {count}, the entry is chunk {}", header.entry)?;
    for number in numbers {
        writeln!(out)?;
        chunk(out, facts, *number)?;
    }
    if numbers.len() == chunks.len() {
        writeln!(out)?;
        slots(out, facts)?;
        let reply = counted(facts.report.reply().into(), "byte");
        writeln!(out, "largest body of a reply: {reply}")?;
    }
    Ok(())
}

fn chunk(out: &mut impl Write, facts: &Facts, number: u16) -> io::Result<()> {
    let chunk = facts.chunk(number);
    head(out, facts, number, chunk)?;
    let lines = lines(facts, number, 0..chunk.code.len());
    table(out, &lines, None)
}

fn head(out: &mut impl Write, facts: &Facts, number: u16, chunk: &Chunk) -> io::Result<()> {
    let entry = if facts.description.header.entry == number { ", entry" } else { "" };
    let unreachable = if chunk.reachable == 0 { ", not reachable: not analysed" } else { "" };
    let Chunk { block, locals, deepest, .. } = chunk;
    writeln!(out, "chunk {number}: {block}{entry}, L {locals}, D {deepest}{unreachable}")?;
    let Some(signature) = facts.report.signature(number) else {
        return writeln!(out, "  no signature");
    };
    let inputs = show::locals(signature.inputs().iter());
    writeln!(out, "  inputs  {}", if inputs.is_empty() { "none" } else { &inputs })?;
    writeln!(out, "  result  {}", show::cell(&signature.result()))
}

/// The lines of a range of a chunk's instructions.
fn lines(facts: &Facts, chunk: u16, range: std::ops::Range<usize>) -> Vec<Line> {
    // Behind a Trap that stands in for a refused instruction nothing was followed.
    let unreached = if facts.stopped.is_empty() { "never reached" } else { "not followed" };
    let sources = sources(facts, chunk);
    let line = |number: usize| {
        let i = facts.instruction(chunk, number);
        let state = facts.record(chunk, number).map(|record| State {
            marks: join(&[marks(facts, chunk, number, record), jumps(&sources[number], number)]),
            ..state(record)
        });
        Line { number, name: name(i), state, unreached }
    };
    range.map(line).collect()
}

/// Parts with two spaces between, the empty ones left out.
fn join(parts: &[String]) -> String {
    let there: Vec<&str> = parts.iter().map(String::as_str).filter(|part| !part.is_empty()).collect();
    there.join("  ")
}

/// From where control comes but from the instruction before.
fn jumps(sources: &[Source], number: usize) -> String {
    const MOST: usize = 4;
    let far: Vec<String> =
        sources.iter().filter(|source| source.at + 1 != number).map(|source| source.at.to_string()).collect();
    let more = if far.len() > MOST { ", .." } else { "" };
    if far.is_empty() { String::new() } else { format!("<- {}{more}", far[..far.len().min(MOST)].join(", ")) }
}

/// An instruction, with what goes out and comes in at a dialogue site.
fn name(i: &Instruction) -> String {
    let site = |site: &genduvo::description::Site| {
        format!(" ({} out, {} in)", show::shape(&site.yielded), show::shape(&site.reply))
    };
    show::instruction(i) + &i.site.as_ref().map_or(String::new(), site)
}

fn state(record: Record) -> State {
    let outputs: Vec<String> = record.outputs().iter().map(|output| show::cell(&output.cell)).collect();
    let gives = if outputs.is_empty() { String::new() } else { format!("gives {}", outputs.join(", ")) };
    let (stack, locals) = (show::cells(record.stack().iter()), show::locals(record.locals().iter()));
    State { stack, locals, gives, marks: String::new() }
}

/// What stands out at an instruction: guards, a known branch, an inspection that says false.
pub fn marks(facts: &Facts, chunk: u16, number: usize, record: Record) -> String {
    let guard = |guard: genduvo::report::Guard| format!("GUARD stack {} is {}", guard.place, guard.mask);
    let mut marks: Vec<String> = record.guards().iter().map(guard).collect();
    marks.extend(facts.known(chunk, number).map(|value| format!("KNOWN {value}")));
    marks.extend(facts.never(chunk, number).then(|| "NEVER".to_string()));
    marks.extend(facts.refused.get(&(chunk, number)).map(|reason| format!("REFUSED {reason}")));
    marks.join("  ")
}

/// Lines in columns; one of them may be pointed at.
fn table(out: &mut impl Write, lines: &[Line], pointed: Option<usize>) -> io::Result<()> {
    let widest = |of: fn(&Line) -> usize, most: usize| lines.iter().map(of).max().unwrap_or(0).min(most);
    let name_width = widest(|line| line.name.len(), WIDEST_NAME);
    let stack_width = widest(|line| line.state.as_ref().map_or(0, |state| state.stack.len()), WIDEST_STACK);
    let locals_width = widest(|line| line.state.as_ref().map_or(0, |state| state.locals.len()), WIDEST_LOCALS);
    for line in lines {
        let arrow = if pointed == Some(line.number) { "->" } else { "" };
        let mut text = format!("{arrow:>2}{:>5}  {:name_width$}  ", line.number, line.name);
        match &line.state {
            None => text += line.unreached,
            Some(State { stack, locals, gives, marks }) => {
                text += &format!("{stack:stack_width$}  ");
                if locals_width > 0 {
                    text += &format!("{locals:locals_width$}  ");
                }
                text += &join(&[gives.clone(), marks.clone()]);
            }
        }
        writeln!(out, "{}", text.trim_end())?;
    }
    Ok(())
}

/// So many instructions before and behind one, which is pointed at.
pub fn around(out: &mut impl Write, facts: &Facts, chunk: u16, at: usize) -> io::Result<()> {
    const BESIDE: usize = 4;
    let range = at.saturating_sub(BESIDE)..(at + BESIDE + 1).min(facts.chunk(chunk).code.len());
    table(out, &lines(facts, chunk, range), Some(at))
}

/// The slots of the data layout, equal neighbours together.
fn slots(out: &mut impl Write, facts: &Facts) -> io::Result<()> {
    if facts.description.header.layout == 0 {
        return writeln!(out, "no data layout");
    }
    writeln!(out, "{}", counted(facts.description.header.slots.into(), "slot"))?;
    let texts: Vec<String> = facts.report.slots().enumerate().map(|(number, cell)| slot(facts, number, cell)).collect();
    let mut first = 0;
    for run in texts.chunk_by(|one, next| one == next) {
        let last = first + run.len() - 1;
        let numbers = if first == last { first.to_string() } else { format!("{first}-{last}") };
        writeln!(out, "{numbers:>7}  {}", run[0])?;
        first = last + 1;
    }
    Ok(())
}

fn slot(facts: &Facts, number: usize, cell: genduvo::report::Cell) -> String {
    let Description { shared, placements, initializers, .. } = facts.description;
    let placed = placements.iter().find(|placement| usize::from(placement.slot) == number);
    let body = placed.map(|placement| format!("private body at offset {}", grouped(placement.offset.into())));
    if let Some(kind) = shared.get(number) {
        let also = body.map_or(String::new(), |body| format!(", {body}, holds {}", show::cell(&cell)));
        return format!("shared {}{also}", shared_kind(*kind));
    }
    let held =
        if cell.mask.is_none() { "nothing writes it".to_string() } else { format!("holds {}", show::cell(&cell)) };
    let begins = initializers.get(number - shared.len()).map(|initializer| {
        let mask = Mask::constant(initializer.value.0, initializer.bool_value == 1);
        format!(", begins as {mask}")
    });
    format!("{}{}, {held}", body.unwrap_or("private".to_string()), begins.unwrap_or_default())
}

/// The mask of a shared slot's kind byte: a scalar below 8, else a body with the flag 128 taken off.
pub fn shared_kind(kind: u8) -> Mask {
    const SCALARS: u8 = 8;
    const BODY_FLAG: u8 = 128;
    if kind < SCALARS { Mask::scalar(kind) } else { Mask::body(kind & !BODY_FLAG) }
}
