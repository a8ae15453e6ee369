//! Cells, shapes and instructions as a person reads them.

use genduvo::Mask;
use genduvo::description::{ConstValue, Instruction, Op, Operands, Shape, ShapeTag};
use genduvo::report::{Cell, Extent, Width};

/// Body kinds in the order of a cell's extents.
pub const BODIES: [(Mask, &str); 4] =
    [(Mask::TUPLE, "TUPLE"), (Mask::ARRAY, "ARRAY"), (Mask::STRUCT, "STRUCT"), (Mask::ENUM, "ENUM")];

/// A number with its digits in groups of three.
pub fn grouped(number: u64) -> String {
    let digits = number.to_string();
    let mut out = String::new();
    for (at, digit) in digits.chars().enumerate() {
        if at > 0 && (digits.len() - at) % 3 == 0 {
            out.push(',');
        }
        out.push(digit);
    }
    out
}

/// So many of something: `1 step`, `2 steps`.
pub fn counted(number: u64, one: &str) -> String {
    let plural = if number == 1 { "" } else { "s" };
    format!("{} {one}{plural}", grouped(number))
}

/// The bytes of a body; nothing where there is none.
pub fn extent(extent: Extent) -> Option<String> {
    match extent {
        Extent::Absent => None,
        Extent::Unknown => Some("? bytes".to_string()),
        Extent::Range { min, max } if min == max => Some(counted(min.into(), "byte")),
        Extent::Range { min, max } => Some(format!("{min}..{max} bytes")),
    }
}

/// The kinds of a mask with the extents of those that are bodies.
fn kinds(mask: Mask, extents: &[Extent; 4]) -> String {
    let alike = extents.iter().all(|extent| *extent == extents[0]);
    if mask == Mask::UNKNOWN && alike {
        let known = extent(extents[0]).filter(|_| extents[0] != Extent::Unknown);
        return known.map_or("UNKNOWN".to_string(), |bytes| format!("UNKNOWN (bodies {bytes})"));
    }
    let together = mask.contains(Mask::BODY) && alike;
    let mut parts: Vec<String> = mask.without(Mask::BODY | Mask::TRUE).names().map(str::to_string).collect();
    if mask.contains(Mask::BOOL) {
        parts = mask.without(Mask::BODY).names().map(str::to_string).collect();
    }
    if together {
        parts.push(with_bytes("BODY", extents[0]));
    } else {
        let there = BODIES.iter().zip(extents).filter(|((body, _), _)| mask.meets(*body));
        parts.extend(there.map(|((_, name), extent)| with_bytes(name, *extent)));
    }
    if mask.meets(Mask::TRUE) && !mask.contains(Mask::BOOL) {
        parts.push("TRUE".to_string());
    }
    if parts.is_empty() { "NONE".to_string() } else { parts.join("|") }
}

fn with_bytes(name: &str, of: Extent) -> String {
    extent(of).map_or(name.to_string(), |bytes| format!("{name} {bytes}"))
}

/// A cell: kinds, width, extents, ownership, origin and predicate.
pub fn cell(cell: &Cell) -> String {
    let mut out = kinds(cell.mask, &cell.extents);
    match cell.width {
        Width::Scalar(bytes) => out += &format!(":{bytes}"),
        Width::Body(bytes) if !cell.mask.meets(Mask::BODY) => out += &format!(":body of {bytes}"),
        _ => {}
    }
    if cell.owned {
        out += " owned";
    }
    if let Some(local) = cell.origin {
        out += &format!(" =L{local}");
    }
    if let Some(predicate) = cell.predicate {
        let not = if predicate.when { "" } else { "not the " };
        out += &format!(" ({not}ENUM test of L{})", predicate.receiver);
    }
    out
}

/// Cells in brackets, those of the stack from the bottom.
pub fn cells(all: impl IntoIterator<Item = Cell>) -> String {
    let parts: Vec<String> = all.into_iter().map(|one| cell(&one)).collect();
    format!("[{}]", parts.join(", "))
}

/// Cells by the number of their local, equal neighbours together: `L0 WORD:8, L1-L9 UNIT:0`.
pub fn locals(all: impl IntoIterator<Item = Cell>) -> String {
    let mut runs: Vec<(usize, usize, Cell)> = Vec::new();
    for (number, cell) in all.into_iter().enumerate() {
        match runs.last_mut() {
            Some((_, last, same)) if *same == cell => *last = number,
            _ => runs.push((number, number, cell)),
        }
    }
    let run = |(first, last, one): &(usize, usize, Cell)| match last - first {
        0 => format!("L{first} {}", cell(one)),
        _ => format!("L{first}-L{last} {}", cell(one)),
    };
    runs.iter().map(run).collect::<Vec<_>>().join(", ")
}

/// What a declared shape says, as the cell that it makes.
pub fn shape_cell(shape: &Shape) -> Cell {
    let width = match shape.width {
        1 => Width::Scalar(shape.size),
        2 => Width::Body(shape.size),
        _ => Width::Unknown,
    };
    let of = |body: Mask| match (shape.mask().meets(body), width) {
        (false, _) => Extent::Absent,
        (true, Width::Body(size)) => Extent::Range { min: size, max: size },
        (true, _) => Extent::Unknown,
    };
    let extents = BODIES.map(|(body, _)| of(body));
    Cell { mask: shape.mask(), width, extents, owned: false, origin: None, predicate: None }
}

/// A declared shape.
pub fn shape(shape: &Shape) -> String {
    cell(&shape_cell(shape))
}

/// A declared shape as the text form's words: tag, kind and width.
pub fn shape_words(shape: &Shape) -> String {
    let width = match shape.width {
        0 => "of unknown width".to_string(),
        1 => format!("{} wide", counted(shape.size.into(), "byte")),
        _ => format!("a body of {}", counted(shape.size.into(), "byte")),
    };
    match shape.tag {
        ShapeTag::TOP => format!("Top, {width}"),
        tag => format!("{tag} of kind {} ({}), {width}", shape.kind, shape.mask()),
    }
}

/// An instruction by name, its operands by their meaning.
pub fn instruction(i: &Instruction) -> String {
    let Instruction { op, a, b, c, .. } = *i;
    match op.operands() {
        Operands::None if op == Op::POP_N => format!("{op} of {}", i.taken),
        Operands::None => op.to_string(),
        Operands::Constant => format!("{op} {}", constant(a, b, c)),
        Operands::Target => format!("{op} -> {a}"),
        Operands::Callee => format!("{op} chunk {a}"),
        Operands::Slot => format!("{op} slot {a}"),
        Operands::Slots => format!("{op} {}", slots(a, b)),
        Operands::Composite if a == 0 => format!("{op} {} of {}", Mask::body(b as u8), counted(c.into(), "byte")),
        Operands::Composite => format!("{op} boxed {}", Mask::body(b as u8)),
        Operands::Read => format!("{op} {}", read(a, b, c)),
        _ => format!("{op} {a}"),
    }
}

fn constant(a: u32, b: u32, c: u32) -> String {
    let kind = ConstValue(a as u8);
    let value = match (kind, b) {
        (ConstValue::BOOL, 0) => " false",
        (ConstValue::BOOL, _) => " true",
        _ => "",
    };
    // Operand c is the size of its site and one.
    let site = c.checked_sub(1).map_or(String::new(), |size| format!(" of {}", counted(size.into(), "byte")));
    format!("{kind}{value}{site}")
}

/// Slots of an indexed access.
pub fn slots(first: u32, count: u32) -> String {
    match count {
        0 => format!("no slots, at {first}"),
        1 => format!("slot {first}"),
        _ => format!("slots {first} to {}", u64::from(first) + u64::from(count) - 1),
    }
}

fn read(form: u32, kind: u32, size: u32) -> String {
    match form {
        0 => format!("flat {}", Mask::scalar(kind as u8)),
        1 => format!("nested {} of {}", Mask::body(kind as u8), counted(size.into(), "byte")),
        _ => "boxed".to_string(),
    }
}
