//! The rules of each field, in the order of its parts.

use super::contents::{Contents, Part};
use super::{Late, Seen};
use genduvo::description::{BlockType, ConstValue, Op, Operands, TypeTag};

/// The largest values of a description.
const CHUNKS: u32 = 64;
const INSTRUCTIONS: usize = 4_096;
const LOCALS: u32 = 256;
const DEEPEST: u32 = 64;
const PARAMETERS: u32 = 16;
const TAKEN: u32 = 64;
const GIVEN: u32 = 4;
const SLOTS: u32 = 1_024;
const NATIVES: usize = 256;
const FIELDS: usize = 1_024;
const FLOAT_BITS_LOG2: u32 = 31;
const BODY_KIND: u32 = 3;
const WIDE: u32 = u16::MAX as u32;
const NARROW: u32 = u8::MAX as u32;

/// Each of these answers None where the contents end too early, which is noted.
pub(super) fn header(field: &mut Contents, seen: &mut Seen) -> Option<()> {
    let float = field.u8("float_bits_log2")?;
    let entry = field.u16("the entry chunk")?;
    let chunks = field.u16("the number of chunks")?;
    let signatures = field.u16("the number of signatures")?;
    let layout = field.u8("the flag \"data layout present\"")?;
    let slots = field.u16("the number of slots")?;
    let owns = field.u8("the flag owns_bodies")?;
    field.u32("persistent_composite_bytes")?;
    let handle = field.u8("the size of a handle")?;
    field.flag(layout);
    field.hold(1, slots, layout.value != 0 || slots.value == 0, "without a data layout there are 0 slots");
    field.flag(owns);
    field.hold(1, handle, matches!(handle.value, 4 | 8), "a handle has 4 or 8 bytes");
    most(field, float, FLOAT_BITS_LOG2);
    most(field, chunks, CHUNKS);
    let count = chunks.value;
    field.hold(2, signatures, signatures.value <= count, format_args!("there are {count} chunks, so no more of these"));
    most(field, slots, SLOTS);
    let count = signatures.value;
    field.hold(3, entry, entry.value < count, format_args!("the entry has a signature, so it is below {count}"));
    seen.chunks = chunks.value as usize;
    seen.signatures = signatures.value as usize;
    seen.layout = layout.value == 1;
    field.finish()
}

/// A number isn't above the largest value.
fn most(field: &mut Contents, part: Part, largest: u32) {
    field.hold(2, part, part.value <= largest, format_args!("the largest value is {largest}"));
}

/// Field 2.
pub(super) fn chunk(field: &mut Contents, seen: &mut Seen) -> Option<()> {
    let number = seen.params.len();
    seen.params.push(0);
    seen.instructions = 0;
    let reachable = field.u8("the flag reachable")?;
    let block = field.u8("the block type")?;
    let locals = field.u16("the number of locals, L")?;
    let deepest = field.u16("the deepest stack, D")?;
    let count = field.u8("param_count")?;
    field.flag(reachable);
    field.hold(1, block, BlockType(block.value as u8).name().is_some(), "there are three block types, 0 to 2");
    most(field, locals, LOCALS);
    most(field, deepest, DEEPEST);
    most(field, count, PARAMETERS);
    seen.locals = locals.value;
    type_tags(field)?;
    if number < seen.signatures {
        seen.params[number] = signature(field, locals.value)?;
    }
    field.finish()
}

fn type_tags(field: &mut Contents) -> Option<()> {
    let tags = field.u8("the number of type tags")?;
    most(field, tags, PARAMETERS);
    for _ in 0..tags.value {
        let tag = field.u8("a type tag")?;
        field.hold(1, tag, TypeTag(tag.value as u8).name().is_some(), "there are eight type tags, 0 to 7");
    }
    Some(())
}

/// The parameter shapes, whose number it answers, and the shape of the result.
fn signature(field: &mut Contents, locals: u32) -> Option<usize> {
    let params = field.u8("the number of parameter shapes")?;
    most(field, params, PARAMETERS);
    let rule = format_args!("each parameter is a local, and L is {locals}");
    field.hold(3, params, params.value <= locals, rule);
    for _ in 0..params.value {
        field.shape("a parameter shape")?;
    }
    field.shape("the shape of the result")?;
    Some(params.value as usize)
}

/// Field 3.
pub(super) fn instruction(field: &mut Contents, seen: &mut Seen) -> Option<()> {
    seen.instructions += 1;
    let number = seen.instructions - 1;
    let rule = format_args!("a chunk has at most {INSTRUCTIONS} instructions, and this is one more");
    field.hold(2, field.tag(), number < INSTRUCTIONS, rule);
    let place = field.u8("the instruction's number")?;
    let op = Op(place.value as u8);
    let taken = field.u8("taken")?;
    let given = field.u8("given")?;
    let operands = [field.u32("operand a")?, field.u32("operand b")?, field.u32("operand c")?];
    if op.name().is_none() {
        field.refuse(1, place, "there are 66 instructions, 0 to 65");
        return None;
    }
    most(field, taken, TAKEN);
    most(field, given, GIVEN);
    effect(field, op, taken, op.taken(), "takes");
    effect(field, op, given, op.given(), "gives");
    operand_rules(field, seen, op, operands);
    if op == Op::CALL {
        let [callee, ..] = operands;
        seen.late.push(Late::call(seen, field.first, taken, callee.value as usize));
    } else if op == Op::YIELD {
        seen.late.push(Late::yielding(seen, field.first));
    }
    field.finish()
}

fn effect(field: &mut Contents, op: Op, part: Part, allowed: std::ops::RangeInclusive<u8>, verb: &str) {
    let (least, largest) = (u32::from(*allowed.start()), u32::from(*allowed.end()));
    let holds = (least..=largest).contains(&part.value);
    if least == largest {
        field.hold(4, part, holds, format_args!("{op} {verb} exactly {least}"));
    } else {
        field.hold(4, part, holds, format_args!("{op} {verb} {least} to {largest}"));
    }
}

/// Operands that an instruction doesn't have are 0.
fn zero(field: &mut Contents, op: Op, rest: &[Part]) {
    for part in rest {
        field.hold(1, *part, part.value == 0, format_args!("{op} has no such operand, so it is 0"));
    }
}

fn operand_rules(field: &mut Contents, seen: &Seen, op: Op, [a, b, c]: [Part; 3]) {
    match op.operands() {
        Operands::None => zero(field, op, &[a, b, c]),
        Operands::Constant => constant(field, a, b),
        Operands::Slots => {
            zero(field, op, &[c]);
            let holds = b.value != 0 || seen.layout;
            field.hold(3, b, holds, "an indexed access of 0 slots wants a data layout");
        }
        Operands::Composite => composite(field, [a, b, c]),
        Operands::Read => read(field, [a, b, c]),
        _ => {
            zero(field, op, &[b, c]);
            single(field, seen, op, a);
        }
    }
}

/// The operand of an instruction that has one.
fn single(field: &mut Contents, seen: &Seen, op: Op, a: Part) {
    match op.operands() {
        Operands::Local => {
            most(field, a, WIDE);
            let locals = seen.locals;
            field.hold(3, a, a.value < locals, format_args!("a local is below L, which is {locals}"));
        }
        Operands::Callee => {
            most(field, a, WIDE);
            let signatures = seen.signatures;
            let rule = format_args!("a callee has a signature, so it is below {signatures}");
            field.hold(3, a, (a.value as usize) < signatures, rule);
        }
        Operands::Target | Operands::Native => most(field, a, WIDE),
        Operands::Immediate => most(field, a, NARROW),
        _ => {}
    }
}

fn constant(field: &mut Contents, a: Part, b: Part) {
    let named = u8::try_from(a.value).is_ok_and(|value| ConstValue(value).name().is_some());
    field.hold(1, a, named, "there are twelve kinds of constant, 0 to 11");
    if a.value == u32::from(ConstValue::BOOL.0) {
        field.hold(1, b, b.value <= 1, "the value of a Bool is 0 or 1");
    } else {
        field.hold(1, b, b.value == 0, "only a Bool has a value here, so it is 0");
    }
}

fn composite(field: &mut Contents, [a, b, c]: [Part; 3]) {
    const BOXED: u32 = 1;
    field.hold(1, a, a.value <= BOXED, "a construction is 0 flat or 1 boxed");
    field.hold(1, c, a.value != BOXED || c.value == 0, "a boxed construction has no bytes, so this is 0");
    most(field, b, BODY_KIND);
    most(field, c, WIDE);
}

fn read(field: &mut Contents, [a, b, c]: [Part; 3]) {
    const FLAT: u32 = 0;
    const NESTED: u32 = 1;
    const BOXED: u32 = 2;
    field.hold(1, a, a.value <= BOXED, "a read is 0 Flat, 1 FlatNested or 2 Boxed");
    field.hold(1, b, a.value != BOXED || b.value == 0, "a boxed read has no kind, so this is 0");
    let sized = !matches!(a.value, FLAT | BOXED);
    field.hold(1, c, sized || c.value == 0, "only a nested read has a size, so this is 0");
    match a.value {
        FLAT => most(field, b, NARROW),
        NESTED => {
            most(field, b, BODY_KIND);
            most(field, c, WIDE);
        }
        _ => {}
    }
}

/// Fields 4 to 8.
pub(super) fn other(field: &mut Contents, seen: &mut Seen) -> Option<()> {
    let tag = field.tag();
    counted(field, seen, tag);
    match tag.value {
        4 => {
            field.shape("the yielded shape")?;
            field.shape("the shape of the reply")?;
            seen.site();
        }
        5 => {
            field.shape("a native's shape")?;
            let snapshot = field.u8("the flag Snapshot")?;
            field.flag(snapshot);
        }
        6 => {
            field.u8("a shared slot's kind")?;
        }
        7 => {
            field.u16("a placement's slot")?;
            field.u32("a placement's offset")?;
        }
        _ => initializer(field)?,
    }
    field.finish()
}

/// There are so many fields of the tags 5 to 8 and no more.
fn counted(field: &mut Contents, seen: &mut Seen, tag: Part) {
    const FIRST: u32 = 5;
    let Some(place) = tag.value.checked_sub(FIRST) else {
        return;
    };
    let count = &mut seen.counts[place as usize];
    *count += 1;
    let largest = if tag.value == FIRST { NATIVES } else { FIELDS };
    let rule = format_args!("there are at most {largest} such fields, and this is one more");
    field.hold(2, tag, *count <= largest, rule);
}

fn initializer(field: &mut Contents) -> Option<()> {
    let place = field.u8("an initializer's kind")?;
    let value = field.u8("an initializer's Bool")?;
    let named = ConstValue(place.value as u8).name().is_some();
    field.hold(1, place, named, "there are twelve kinds of constant, 0 to 11");
    field.flag(value);
    Some(())
}
