//! Refusals 9 to 12: what disagrees in the description.

use crate::show;
use genduvo::description::{Chunk, Description, Op, Shape, TypeTag};
use genduvo::{Mask, Reason, Refusal};
use std::io::{self, Write};

/// Writes what disagrees.
pub fn write(out: &mut impl Write, d: &Description, refusal: &Refusal) -> io::Result<()> {
    let lines = match (refusal.reason, refusal.chunk) {
        (Reason::IncompleteSignatures, Some(chunk)) => vec![incomplete(&d.chunks[usize::from(chunk)])],
        (Reason::ParameterDisagrees, Some(chunk)) => disagreeing(&d.chunks[usize::from(chunk)]),
        (Reason::ReplyUnbounded, _) => unbounded(d),
        _ => past_slots(d),
    };
    lines.iter().try_for_each(|line| writeln!(out, "  {line}"))
}

fn incomplete(chunk: &Chunk) -> String {
    let shapes = chunk.signature.as_ref().map(|signature| signature.params.len());
    match shapes {
        None => "a reachable chunk has a signature; this one is past the header's number of signatures".to_string(),
        Some(_) if chunk.code.is_empty() => "a reachable chunk has an instruction; this one has none".to_string(),
        Some(shapes) => format!("param_count is {}, and there are {shapes} parameter shapes", chunk.param_count),
    }
}

/// The kinds that a type tag stands for; a composite may be anything.
fn tagged(tag: TypeTag) -> Option<Mask> {
    match tag {
        TypeTag::BYTE => Some(Mask::BYTE),
        TypeTag::WORD => Some(Mask::WORD),
        TypeTag::FIXED => Some(Mask::FIXED),
        TypeTag::FLOAT => Some(Mask::FLOAT),
        TypeTag::BOOL => Some(Mask::BOOL),
        TypeTag::UNIT => Some(Mask::UNIT),
        TypeTag::TEXT => Some(Mask::TEXT),
        _ => None,
    }
}

fn disagreeing(chunk: &Chunk) -> Vec<String> {
    let shapes = chunk.signature.iter().flat_map(|signature| &signature.params);
    let pairs = chunk.tags.iter().zip(shapes).enumerate();
    let line = |(number, (tag, shape)): (usize, (&TypeTag, &Shape))| {
        let wanted = tagged(*tag).filter(|mask| *mask != shape.mask())?;
        let (found, words) = (shape.mask(), show::shape_words(shape));
        Some(format!("parameter {number}: the type tag is {tag}, so {wanted}, and the shape is {words}, so {found}"))
    };
    pairs.filter_map(line).collect()
}

/// Whether a shape lets bodies of unknown size be replied.
fn is_unbounded(shape: &Shape) -> bool {
    shape.mask().meets(Mask::BODY) && shape.width != Shape::BODY
}

fn unbounded(d: &Description) -> Vec<String> {
    let why = |shape: &Shape| format!("{}, which may be a body of any size", show::shape_words(shape));
    let entry = d.chunks.get(usize::from(d.header.entry)).and_then(|chunk| chunk.signature.as_ref());
    let first = entry.and_then(|signature| signature.params.first()).filter(|shape| is_unbounded(shape));
    let mut lines: Vec<String> =
        first.map(|shape| format!("the entry's first parameter is {}", why(shape))).into_iter().collect();
    for (number, chunk) in d.chunks.iter().enumerate() {
        let sites = chunk.code.iter().enumerate().filter_map(|(at, i)| Some((at, i.op, i.site?.reply)));
        let loose = sites.filter(|(_, _, reply)| is_unbounded(reply));
        lines.extend(loose.map(|(at, op, reply)| site_line(number, at, op, &why(&reply))));
    }
    lines.push("replies are bounded where each is a scalar, or a body whose width is declared".to_string());
    lines
}

fn site_line(chunk: usize, at: usize, op: Op, why: &str) -> String {
    format!("chunk {chunk}, instruction {at} ({op}): the reply is {why}")
}

fn past_slots(d: &Description) -> Vec<String> {
    let (shared, slots) = (d.shared.len(), usize::from(d.header.slots));
    let first = slots.saturating_sub(shared);
    let numbers = format!(
        "{} initializers, {shared} shared slots before the private ones, {slots} slots in all",
        d.initializers.len()
    );
    vec![numbers, format!("initializer {first} would be that of slot {}: there is no such slot", shared + first)]
}
