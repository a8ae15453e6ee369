//! Refusals 1 to 4: the form of a description, from its bytes alone.

use crate::model::{SHORT_HANDLE, Shape, Take, USUAL_HANDLE, split_field};
use crate::ops::{self, Operands};
use crate::run::{NONE, Refusal};

pub const LONGEST: usize = 1_048_576;

/// The faults of one field; the lowest number counts.
struct Faults(u8);
impl Faults {
    fn note(&mut self, number: u8, there: bool) {
        if there && (self.0 == 0 || number < self.0) {
            self.0 = number;
        }
    }
}

/// What later fields are held against.
#[derive(Default)]
struct Seen {
    chunks: usize,
    signatures: usize,
    layout: bool,
    /// Parameter shapes of each chunk so far.
    params: Vec<usize>,
    locals: u16,
    instructions: usize,
    /// How many fields of the tags 5 to 8.
    counts: [usize; 4],
    late: Vec<Late>,
}
/// An instruction that is looked at again after all fields.
enum Late {
    Call { chunk: usize, instruction: usize, callee: usize, taken: usize },
    Yield { chunk: usize, instruction: usize, site: bool },
}

fn refusal(number: u8, chunk: Option<usize>, instruction: Option<usize>) -> Refusal {
    let place = |value: Option<usize>| value.map_or(NONE, |value| value as u16);
    Refusal { number, chunk: place(chunk), instruction: place(instruction), steps: 0 }
}

pub fn check(bytes: &[u8]) -> Result<(), Refusal> {
    if bytes.len() > LONGEST {
        return Err(refusal(2, None, None));
    }
    let bad = refusal(1, None, None);
    let mut seen = Seen::default();
    let mut rest = bytes;
    let mut last = 0;
    while !rest.is_empty() {
        let (tag, contents, after) = split_field(rest).ok_or(bad)?;
        rest = after;
        let in_order = match tag {
            1 => last == 0,
            2 => (1..=4).contains(&last) && seen.params.len() < seen.chunks,
            3 => (2..=4).contains(&last),
            4 => last == 3,
            5 => (1..=5).contains(&last),
            6..=8 => last >= 1 && last <= tag && seen.layout,
            _ => false,
        };
        if !in_order {
            return Err(bad);
        }
        last = tag;
        let mut faults = Faults(0);
        let whole = match tag {
            1 => header(contents, &mut seen, &mut faults),
            2 => chunk(contents, &mut seen, &mut faults),
            3 => instruction(contents, &mut seen, &mut faults),
            _ => other(tag, contents, &mut seen, &mut faults),
        };
        faults.note(1, whole.is_none());
        let chunk = seen.params.len().checked_sub(1);
        match (faults.0, tag) {
            (0, _) => {}
            (number @ 1..=2, _) | (number, 1) => return Err(refusal(number, None, None)),
            (number, 2) => return Err(refusal(number, chunk, None)),
            (number, _) => return Err(refusal(number, chunk, seen.instructions.checked_sub(1))),
        }
    }
    if last == 0 || seen.params.len() != seen.chunks {
        return Err(bad);
    }
    for late in &seen.late {
        match *late {
            Late::Call { chunk, instruction, callee, taken } if taken > seen.params[callee] => {
                return Err(refusal(3, Some(chunk), Some(instruction)));
            }
            Late::Yield { chunk, instruction, site: false } => {
                return Err(refusal(3, Some(chunk), Some(instruction)));
            }
            _ => {}
        }
    }
    Ok(())
}

/// Each of these answers None where the length does not fit the contents.
fn header(contents: &[u8], seen: &mut Seen, faults: &mut Faults) -> Option<()> {
    let mut take = Take(contents);
    let float_bits_log2 = take.u8()?;
    let entry = take.u16()?;
    let chunks = take.u16()?;
    let signatures = take.u16()?;
    let layout = take.u8()?;
    let slots = take.u16()?;
    let owns_bodies = take.u8()?;
    let _persistent_composite_bytes = take.u32()?;
    let handle = take.u8()?;
    faults.note(1, layout > 1 || owns_bodies > 1 || layout == 0 && slots != 0);
    faults.note(1, handle != SHORT_HANDLE && handle != USUAL_HANDLE);
    faults.note(2, float_bits_log2 > 31 || chunks > 64 || signatures > chunks || slots > 1024);
    faults.note(3, entry >= signatures);
    seen.chunks = usize::from(chunks);
    seen.signatures = usize::from(signatures);
    seen.layout = layout == 1;
    take.0.is_empty().then_some(())
}

fn chunk(contents: &[u8], seen: &mut Seen, faults: &mut Faults) -> Option<()> {
    let number = seen.params.len();
    seen.params.push(0);
    seen.instructions = 0;
    let mut take = Take(contents);
    let reachable = take.u8()?;
    let block = take.u8()?;
    let locals = take.u16()?;
    let deepest = take.u16()?;
    let param_count = take.u8()?;
    let tags = take.u8()?;
    seen.locals = locals;
    faults.note(1, reachable > 1 || block >= ops::BLOCKS);
    faults.note(2, locals > 256 || deepest > 64 || param_count > 16 || tags > 16);
    for _ in 0..tags {
        let place = take.u8()?;
        faults.note(1, place >= ops::TYPE_TAGS);
    }
    if number < seen.signatures {
        let params = take.u8()?;
        faults.note(2, params > 16);
        faults.note(3, u16::from(params) > locals);
        for _ in 0..params {
            shape(take.shape()?, faults);
        }
        shape(take.shape()?, faults);
        seen.params[number] = usize::from(params);
    }
    take.0.is_empty().then_some(())
}

fn shape(shape: Shape, faults: &mut Faults) {
    faults.note(1, shape.tag > 2 || shape.width > 2);
}

fn instruction(contents: &[u8], seen: &mut Seen, faults: &mut Faults) -> Option<()> {
    let chunk = seen.params.len() - 1;
    let number = seen.instructions;
    seen.instructions += 1;
    faults.note(2, number >= 4096);
    let mut take = Take(contents);
    let (op, taken, given) = (take.u8()?, take.u8()?, take.u8()?);
    let (a, b, c) = (take.u32()?, take.u32()?, take.u32()?);
    if op >= ops::INSTRUCTIONS {
        faults.note(1, true);
        return None;
    }
    faults.note(2, taken > 64 || given > 4);
    let fits = |(least, most): (u8, u8), value: u8| least <= value && value <= most;
    faults.note(4, !fits(ops::taken(op), taken) || !fits(ops::given(op), given));
    let wide = u32::from(u16::MAX);
    match ops::operands(op) {
        Operands::None => faults.note(1, a != 0 || b != 0 || c != 0),
        Operands::Constant => {
            faults.note(1, a >= u32::from(ops::CONSTANTS));
            faults.note(1, b > u32::from(a == 1));
        }
        Operands::Local => {
            faults.note(1, b != 0 || c != 0);
            faults.note(2, a > wide);
            faults.note(3, a >= u32::from(seen.locals));
        }
        Operands::Target | Operands::Native => {
            faults.note(1, b != 0 || c != 0);
            faults.note(2, a > wide);
        }
        Operands::Callee => {
            faults.note(1, b != 0 || c != 0);
            faults.note(2, a > wide);
            faults.note(3, a as usize >= seen.signatures);
            let (callee, taken) = (a as usize, usize::from(taken));
            seen.late.push(Late::Call { chunk, instruction: number, callee, taken });
        }
        Operands::Immediate => {
            faults.note(1, b != 0 || c != 0);
            faults.note(2, a > 255);
        }
        Operands::Slot => faults.note(1, b != 0 || c != 0),
        Operands::Slots => {
            faults.note(1, c != 0);
            faults.note(3, b == 0 && !seen.layout);
        }
        Operands::Composite => {
            faults.note(1, a > 1 || a == 1 && c != 0);
            faults.note(2, b > 3 || c > wide);
        }
        Operands::Read => {
            faults.note(1, a > 2 || a == 0 && c != 0 || a == 2 && (b != 0 || c != 0));
            faults.note(2, a == 0 && b > 255 || a == 1 && (b > 3 || c > wide));
        }
    }
    if op == ops::YIELD {
        seen.late.push(Late::Yield { chunk, instruction: number, site: false });
    }
    take.0.is_empty().then_some(())
}

fn other(tag: u8, contents: &[u8], seen: &mut Seen, faults: &mut Faults) -> Option<()> {
    let mut take = Take(contents);
    if tag >= 5 {
        let count = &mut seen.counts[usize::from(tag) - 5];
        *count += 1;
        faults.note(2, *count > if tag == 5 { 256 } else { 1024 });
    }
    match tag {
        4 => {
            shape(take.shape()?, faults);
            shape(take.shape()?, faults);
            let (chunk, instruction) = (seen.params.len() - 1, seen.instructions - 1);
            if let Some(Late::Yield { chunk: c, instruction: i, site }) = seen.late.last_mut()
                && (*c, *i) == (chunk, instruction)
            {
                *site = true;
            }
        }
        5 => {
            shape(take.shape()?, faults);
            faults.note(1, take.u8()? > 1);
        }
        6 => {
            take.u8()?;
        }
        7 => {
            take.u16()?;
            take.u32()?;
        }
        _ => {
            let (place, value) = (take.u8()?, take.u8()?);
            faults.note(1, place >= ops::CONSTANTS || value > 1);
        }
    }
    take.0.is_empty().then_some(())
}
