//! Refusals 1 to 4, and every largest value with one past it.

use oracle::description::Op;
use oracle::form;
use oracle::model::*;
use oracle::ops;

const NO: u16 = 65535;

fn base() -> Description {
    Description::from_text(
        "header float=6 layout=1 slots=3
         chunk block=Stream L=4 D=8 params=1 tags=Word shapes=Scalar:3:s8 returns=Top:0:?
           PushImmediate 4 : 0 1
           Yield : 1 1
         site Scalar:3:s8 Scalar:3:s8
           Return : 0 0
         chunk L=0 D=1 shapes=- returns=Scalar:1:?
           PushImmediate 1 : 0 1
           Return : 0 0
         native Scalar:3:s8 snapshot=0
         shared 3
         place 2 0
         init Bool 1",
    )
    .expect("the base parses")
}
fn with(change: impl FnOnce(&mut Description)) -> Vec<u8> {
    let mut d = base();
    change(&mut d);
    d.encode()
}
fn form(bytes: &[u8]) -> (u8, u16, u16) {
    match form::check(bytes) {
        Ok(()) => (0, 0, 0),
        Err(r) => {
            assert_eq!(r.steps, 0);
            (r.number, r.chunk, r.instruction)
        }
    }
}
fn refused(number: u8, at: (u16, u16), change: impl FnOnce(&mut Description)) {
    assert_eq!(form(&with(change)), (number, at.0, at.1));
}
fn passes(change: impl FnOnce(&mut Description)) {
    assert_eq!(form(&with(change)), (0, 0, 0));
}
/// An instruction put at the end of the second chunk, as its number 2.
fn last(i: Instruction) -> impl FnOnce(&mut Description) {
    move |d| d.chunks[1].code.push(i)
}
fn i(op: u8, taken: u8, given: u8, a: u32, b: u32, c: u32) -> Instruction {
    Instruction::new(op, taken, given, a, b, c)
}
const NEITHER: (u16, u16) = (NO, NO);

#[test]
fn the_base_is_good() {
    passes(|_| {});
}

#[test]
fn order_of_fields() {
    let bytes = base().encode();
    let mut fields = Vec::new();
    let mut rest = &bytes[..];
    while let Some((_, contents, after)) = split_field(rest) {
        fields.push(&rest[..3 + contents.len()]);
        rest = after;
    }
    let tags: Vec<u8> = fields.iter().map(|field| field[0]).collect();
    assert_eq!(tags, [1, 2, 3, 3, 4, 3, 2, 3, 3, 5, 6, 7, 8]);
    let bad = (1, NO, NO);
    assert_eq!(form(&[]), bad);
    // Neighbours changed round. A site moves to another instruction, and an
    // instruction to another chunk, without harm to the order.
    let (good, siteless) = ((0, 0, 0), (3, 0, 1));
    // The Yield first: the PushImmediate has its site.
    let first_siteless = (3, 0, 0);
    let swapped = [bad, bad, first_siteless, siteless, siteless, good, good, good, bad, bad, bad, bad];
    for (k, expected) in swapped.into_iter().enumerate() {
        let mut other = fields.clone();
        other.swap(k, k + 1);
        assert_eq!(form(&other.concat()), expected, "swap at {k}");
    }
    for (k, tag) in tags.iter().enumerate() {
        let mut doubled = fields.clone();
        doubled.insert(k, fields[k]);
        let expected = if matches!(tag, 1 | 2 | 4) { bad } else { (0, 0, 0) };
        // A doubled Yield leaves the first without site.
        let expected = if k == 3 { (3, 0, 1) } else { expected };
        assert_eq!(form(&doubled.concat()), expected, "doubled {k}");
        let mut tagged: Vec<Vec<u8>> = fields.iter().map(|field| field.to_vec()).collect();
        for wrong in [0, 9, 16, 255] {
            tagged[k][0] = wrong;
            assert_eq!(form(&tagged.concat()), bad, "tag {wrong} at {k}");
        }
    }
    // A chunk field is missing: found at the end, after a fault of a later field.
    let missing: Vec<&[u8]> = fields.iter().take(6).chain(&fields[9..]).copied().collect();
    assert_eq!(form(&missing.concat()), bad);
    let many: Vec<&[u8]> = fields[..6].iter().copied().chain(vec![fields[9]; 257]).collect();
    assert_eq!(form(&many.concat()), (2, NO, NO));
    for end in 0..bytes.len() {
        let cut = form(&bytes[..end]);
        let ends_a_field = (6..fields.len()).any(|k| fields[..=k].concat().len() == end);
        assert_eq!(cut, if ends_a_field { (0, 0, 0) } else { bad }, "cut at {end}");
    }
}

#[test]
fn lengths_of_fields() {
    let bytes = base().encode();
    let mut at = 0;
    while let Some((_, contents, _)) = split_field(&bytes[at..]) {
        let mut longer = bytes.clone();
        let length = contents.len() as u16;
        longer[at + 1..at + 3].copy_from_slice(&(length + 1).to_le_bytes());
        longer.insert(at + 3 + contents.len(), 0);
        assert_eq!(form(&longer), (1, NO, NO), "longer at {at}");
        let mut shorter = bytes.clone();
        shorter[at + 1..at + 3].copy_from_slice(&(length - 1).to_le_bytes());
        shorter.remove(at + 2 + contents.len());
        assert_eq!(form(&shorter), (1, NO, NO), "shorter at {at}");
        at += 3 + contents.len();
    }
}

/// 4 and 8 pass; the rest, and a header of 15 bytes, is 1, whatever else is wrong in the field.
#[test]
fn sizes_of_a_handle() {
    let faults: [(u8, fn(&mut Header)); 4] = [
        (0, |_| {}),
        (1, |h| h.layout = 2),
        (2, |h| h.float_bits_log2 = 32),
        (3, |h| h.entry = 9),
    ];
    for (number, fault) in faults {
        for size in 0..=255 {
            let expected = if matches!(size, 4 | 8) { number } else { 1 };
            let bytes = with(|d| (fault(&mut d.header), d.header.handle = size).1);
            assert_eq!(form(&bytes).0, expected, "{number} {size}");
        }
        // Fifteen bytes, as document 01 had them.
        let mut short = with(|d| fault(&mut d.header));
        assert_eq!(short[..3], [1, 16, 0]);
        short.remove(18);
        short[1] = 15;
        assert_eq!(form(&short), (1, NO, NO), "{number}");
    }
}

#[test]
fn flags_and_places() {
    refused(1, NEITHER, |d| d.header.layout = 2);
    refused(1, NEITHER, |d| d.header.owns_bodies = 2);
    refused(1, NEITHER, |d| d.chunks[0].reachable = 2);
    refused(1, NEITHER, |d| d.chunks[0].block = 3);
    refused(1, NEITHER, |d| d.chunks[0].tags[0] = 8);
    refused(1, NEITHER, |d| d.natives[0].snapshot = 2);
    refused(1, NEITHER, |d| d.natives[0].shape.tag = 3);
    refused(1, NEITHER, |d| d.initializers[0].place = 12);
    refused(1, NEITHER, |d| d.initializers[0].value = 2);
    refused(1, NEITHER, last(i(66, 0, 0, 0, 0, 0)));
    passes(|d| d.initializers[0] = Initializer { place: 11, value: 1 });
    let shapes: [fn(&mut Description) -> &mut Shape; 4] = [
        |d| &mut d.chunks[0].signature.as_mut().unwrap().params[0],
        |d| &mut d.chunks[0].signature.as_mut().unwrap().result,
        |d| &mut d.chunks[0].code[1].site.as_mut().unwrap().yielded,
        |d| &mut d.chunks[0].code[1].site.as_mut().unwrap().reply,
    ];
    for shape in shapes {
        refused(1, NEITHER, |d| shape(d).tag = 3);
        refused(1, NEITHER, |d| *shape(d) = Shape { tag: 0, kind: 0, width: 3, size: 0 });
        passes(|d| *shape(d) = Shape { tag: 0, kind: 255, width: 2, size: u32::MAX });
        passes(|d| *shape(d) = Shape { tag: 2, kind: 255, width: 0, size: 9 });
    }
    // Without a layout there are no slots and no fields 6 to 8.
    let bare = |d: &mut Description| {
        d.header.layout = 0;
        (d.header.slots, d.shared, d.placements, d.initializers) = (0, vec![], vec![], vec![]);
    };
    passes(bare);
    refused(1, NEITHER, |d| (bare(d), d.header.slots = 1).1);
    refused(1, NEITHER, |d| (bare(d), d.header.slots = 2000).1);
    refused(1, NEITHER, |d| (bare(d), d.shared.push(0)).1);
    refused(1, NEITHER, |d| (bare(d), d.placements.push(Placement::default())).1);
    refused(1, NEITHER, |d| (bare(d), d.initializers.push(Initializer::default())).1);
    // A layout of no slots may have them all.
    passes(|d| d.header.slots = 0);
}

#[test]
fn largest_values() {
    let big = u16::MAX;
    // 64 chunks pass, 65 are refused.
    let chunks = |d: &mut Description, count: usize, signatures: u16| {
        let last = d.chunks[1].clone();
        d.chunks.resize(count, last);
        for chunk in &mut d.chunks[usize::from(signatures)..] {
            chunk.signature = None;
        }
        (d.header.chunks, d.header.signatures) = (count as u16, signatures);
    };
    passes(|d| chunks(d, 64, 64));
    passes(|d| chunks(d, 64, 1));
    refused(2, NEITHER, |d| chunks(d, 65, 64));
    refused(2, NEITHER, |d| d.header.signatures = 3);
    passes(|d| d.header.float_bits_log2 = 31);
    refused(2, NEITHER, |d| d.header.float_bits_log2 = 32);
    passes(|d| d.header.slots = 1024);
    refused(2, NEITHER, |d| d.header.slots = 1025);
    passes(|d| d.chunks[0].locals = 256);
    refused(2, NEITHER, |d| d.chunks[0].locals = 257);
    refused(2, NEITHER, |d| d.chunks[0].locals = big);
    passes(|d| d.chunks[0].deepest = 64);
    refused(2, NEITHER, |d| d.chunks[0].deepest = 65);
    passes(|d| d.chunks[0].param_count = 16);
    refused(2, NEITHER, |d| d.chunks[0].param_count = 17);
    passes(|d| d.chunks[0].tags = vec![7; 16]);
    refused(2, NEITHER, |d| d.chunks[0].tags = vec![7; 17]);
    refused(1, NEITHER, |d| d.chunks[0].tags = [vec![7; 16], vec![8]].concat());
    let params = |d: &mut Description, count: usize, locals: u16| {
        d.chunks[0].locals = locals;
        d.chunks[0].signature.as_mut().unwrap().params = vec![Shape::default(); count];
    };
    passes(|d| params(d, 16, 16));
    refused(2, NEITHER, |d| params(d, 17, 17));
    refused(2, NEITHER, |d| params(d, 17, 0));
    refused(3, (0, NO), |d| params(d, 16, 15));
    passes(|d| params(d, 0, 0));
    let code = |d: &mut Description, count: usize| d.chunks[1].code = vec![i(ops::END_IF, 0, 0, 0, 0, 0); count];
    passes(|d| code(d, 0));
    passes(|d| code(d, 4096));
    refused(2, NEITHER, |d| code(d, 4097));
    refused(1, NEITHER, |d| {
        code(d, 4096);
        d.chunks[1].code.push(i(ops::END_IF, 0, 0, 1, 0, 0));
    });
    passes(|d| d.natives = vec![Native::default(); 256]);
    refused(2, NEITHER, |d| d.natives = vec![Native::default(); 257]);
    passes(|d| d.shared = vec![255; 1024]);
    refused(2, NEITHER, |d| d.shared = vec![255; 1025]);
    passes(|d| d.placements = vec![Placement { slot: big, offset: u32::MAX }; 1024]);
    refused(2, NEITHER, |d| d.placements = vec![Placement::default(); 1025]);
    passes(|d| d.initializers = vec![Initializer::default(); 1024]);
    refused(2, NEITHER, |d| d.initializers = vec![Initializer::default(); 1025]);
    passes(last(i(ops::POP_N, 64, 4, 0, 0, 0)));
    refused(2, NEITHER, last(i(ops::POP_N, 65, 0, 0, 0, 0)));
    refused(2, NEITHER, last(i(ops::POP_N, 0, 5, 0, 0, 0)));
    // A description of 1,048,576 bytes and one of a byte more.
    let long = |bytes: usize| {
        let mut d = base();
        let all = d.encode().len();
        // Fill up with chunks of instructions, and tags for the last bytes.
        let mut left = bytes - all;
        while left > 600 {
            let mut chunk = d.chunks[1].clone();
            let each = chunk.code.len() * 18;
            let head = 3 + 8 + 1 + 7;
            let count = ((left - head - each - 100) / 18).min(4000);
            chunk.code.extend(vec![i(ops::END_IF, 0, 0, 0, 0, 0); count]);
            left -= head + each + count * 18;
            d.chunks.push(chunk);
        }
        d.header.chunks = d.chunks.len() as u16;
        d.header.signatures = d.header.chunks;
        while left % 4 != 0 {
            left -= 5;
            d.initializers.push(Initializer::default());
        }
        d.shared.extend(vec![0; left / 4]);
        d.encode()
    };
    let longest = long(1_048_576);
    assert_eq!((longest.len(), form(&longest)), (1_048_576, (0, 0, 0)));
    let longer = long(1_048_577);
    assert_eq!((longer.len(), form(&longer)), (1_048_577, (2, NO, NO)));
    assert_eq!(form(&vec![9; 1_048_576]), (1, NO, NO));
    assert_eq!(form(&vec![9; 1_048_577]), (2, NO, NO));
}

#[test]
fn entry_callee_and_late_looks() {
    passes(|d| d.header.entry = 1);
    refused(3, NEITHER, |d| d.header.entry = 2);
    refused(3, NEITHER, |d| (d.header.entry, d.header.signatures, d.chunks[1].signature) = (1, 1, None));
    refused(3, NEITHER, |d| *d = Description::default());
    refused(3, (1, 2), last(i(ops::CALL, 0, 1, 2, 0, 0)));
    // A call that takes more than its callee has; a Yield without site.
    passes(last(i(ops::CALL, 1, 1, 0, 0, 0)));
    refused(3, (1, 2), last(i(ops::CALL, 2, 1, 0, 0, 0)));
    refused(3, (1, 2), last(i(ops::CALL, 1, 1, 1, 0, 0)));
    refused(3, (0, 1), |d| d.chunks[0].code[1].site = None);
    refused(3, (1, 2), last(i(ops::YIELD, 1, 1, 0, 0, 0)));
    // The first found is named; any fault in a later field comes before.
    refused(3, (0, 1), |d| {
        d.chunks[0].code[1].site = None;
        d.chunks[1].code.push(i(ops::CALL, 1, 1, 1, 0, 0));
    });
    refused(2, NEITHER, |d| {
        d.chunks[0].code[1].site = None;
        d.shared = vec![0; 1025];
    });
    // Also in unreachable chunks.
    refused(3, (1, 2), |d| {
        d.chunks[1].reachable = 0;
        last(i(ops::CALL, 1, 1, 1, 0, 0))(d);
    });
    // A site may stand after any instruction, once.
    passes(|d| d.chunks[0].code[0].site = Some(Site::default()));
}

#[test]
fn operands() {
    let wide = 65536;
    let all = u32::MAX;
    for op in 0..66 {
        let taken = ops::taken(op).0;
        let given = ops::given(op).0;
        let form_of = |a: u32, b: u32, c: u32| {
            let mut d = base();
            d.chunks[1].locals = 256;
            d.chunks[1].code.push(i(op, taken, given, a, b, c));
            if op == ops::YIELD {
                d.chunks[1].code[2].site = Some(Site::default());
            }
            form(&d.encode()).0
        };
        let table: &[((u32, u32, u32), u8)] = match Op::NAMES[usize::from(op)] {
            "Const" => &[
                ((0, 0, all), 0), ((11, 0, 0), 0), ((12, 0, 0), 1), ((1, 1, 0), 0), ((1, 2, 0), 1),
                ((2, 1, 0), 1), ((all, 0, 0), 1),
            ],
            "GetLocal" | "SetLocal" => &[
                ((0, 0, 0), 0), ((255, 0, 0), 0), ((256, 0, 0), 3), ((65535, 0, 0), 3),
                ((wide, 0, 0), 2), ((0, 1, 0), 1), ((0, 0, 1), 1), ((wide, 1, 0), 1),
            ],
            "GetData" | "SetData" => &[((all, 0, 0), 0), ((0, 1, 0), 1), ((0, 0, 1), 1)],
            "GetDataIndexed" | "SetDataIndexed" => &[((all, all, 0), 0), ((0, 0, 0), 0), ((0, 0, 1), 1)],
            "If" | "Else" | "Loop" | "EndLoop" | "Break" | "BreakIf" | "CallVerifiedNative"
            | "CallExternalNative" => &[
                ((65535, 0, 0), 0), ((wide, 0, 0), 2), ((0, 1, 0), 1), ((0, 0, 1), 1), ((all, 1, 0), 1),
            ],
            "Call" => &[
                ((1, 0, 0), 0), ((2, 0, 0), 3), ((65535, 0, 0), 3), ((wide, 0, 0), 2), ((1, 1, 0), 1),
                ((1, 0, 1), 1), ((all, 0, 1), 1),
            ],
            "PushImmediate" => &[
                ((20, 0, 0), 0), ((255, 0, 0), 0), ((256, 0, 0), 2), ((0, 1, 0), 1), ((0, 0, 1), 1),
            ],
            "NewComposite" => &[
                ((0, 3, 65535), 0), ((0, 4, 0), 2), ((0, 0, wide), 2), ((1, 3, 0), 0), ((1, 0, 1), 1),
                ((1, 4, 0), 2), ((2, 0, 0), 1), ((2, 9, all), 1), ((1, all, 0), 2),
            ],
            "GetField" | "GetIndex" | "GetTupleField" | "GetEnumField" => &[
                ((0, 255, 0), 0), ((0, 256, 0), 2), ((0, 0, 1), 1), ((1, 3, 65535), 0), ((1, 4, 0), 2),
                ((1, 0, wide), 2), ((2, 0, 0), 0), ((2, 1, 0), 1), ((2, 0, 1), 1), ((3, 0, 0), 1),
                ((0, 256, 1), 1),
            ],
            _ => &[
                ((0, 0, 0), 0), ((1, 0, 0), 1), ((0, 1, 0), 1), ((0, 0, 1), 1), ((all, 0, 0), 1),
            ],
        };
        for ((a, b, c), number) in table {
            let name = Op::NAMES[usize::from(op)];
            assert_eq!(form_of(*a, *b, *c), *number, "{name} {a} {b} {c}");
        }
    }
    // No slots and no layout, whatever the place.
    for op in [ops::GET_DATA_INDEXED, ops::SET_DATA_INDEXED] {
        for (a, b, number) in [(0, 0, 3), (7, 0, 3), (0, 1, 0)] {
            let mut d = base();
            d.header.layout = 0;
            (d.header.slots, d.shared, d.placements, d.initializers) = (0, vec![], vec![], vec![]);
            d.chunks[1].code.push(i(op, 2, 1, a, b, 0));
            let expected = if number == 0 { (0, 0, 0) } else { (3, 1, 2) };
            assert_eq!(form(&d.encode()), expected);
        }
    }
}

/// Document 01's table of what is taken and given, written out once more.
#[test]
fn taken_and_given() {
    let is = |name: &str, all: &str| all.split_whitespace().any(|one| one == name);
    let compare = "CmpEq CmpNe CmpLt CmpGt CmpLe CmpGe";
    let bits = "BitAnd BitOr BitXor";
    let convert = "IntToFloat FloatToInt WordToByte ByteToWord WordToFixed FixedToWord";
    let reads = "GetField GetTupleField GetEnumField";
    for op in 0..66u8 {
        let name = Op::NAMES[usize::from(op)];
        let least = if is(name, compare) || is(name, "Shl Shr GetIndex") {
            2
        } else if is(name, "If BreakIf IsEnum IsStruct SetLocal Dup Yield Not FixedMul FixedDiv")
            || is(name, "BoundsCheck SetData GetDataIndexed SetDataIndexed")
            || is(name, bits)
            || is(name, convert)
            || is(name, reads)
        {
            1
        } else {
            0
        };
        let most = if is(name, "If BreakIf IsEnum IsStruct") { 1 } else { 64 };
        let three = "CheckedAdd CheckedSub CheckedMul CheckedNeg CheckedDiv CheckedMod Div Mod FixedDiv";
        let none = "SetLocal PopN Return If BreakIf Reset Stream Loop EndLoop Break Else EndIf Trap
                    Dup BoundsCheck SetData SetDataIndexed Len";
        let (low, high) = if is(name, three) {
            (3, 3)
        } else if is(name, "IsEnum IsStruct") {
            (2, 2)
        } else if is(name, none) {
            (0, 4)
        } else {
            (1, 4)
        };
        for taken in 0..=66u8 {
            for given in 0..=6u8 {
                let mut d = base();
                let shapes = vec![Shape::default(); 16];
                d.chunks[1].locals = 16;
                d.chunks[1].signature.as_mut().unwrap().params = shapes;
                let mut one = i(op, taken, given, 0, 0, 0);
                one.a = u32::from(op == ops::CALL);
                one.site = Some(Site::default());
                d.chunks[1].code.push(one);
                let expected = if taken > 64 || given > 4 {
                    (2, NO, NO)
                } else if taken < least || taken > most || given < low || given > high {
                    (4, 1, 2)
                } else if op == ops::CALL && taken > 16 {
                    (3, 1, 2)
                } else {
                    (0, 0, 0)
                };
                assert_eq!(form(&d.encode()), expected, "{name} {taken} {given}");
            }
        }
    }
}

#[test]
fn the_lowest_number_in_a_field_counts() {
    // 4 and 3 and 2 and 1 in one instruction.
    refused(4, (1, 2), last(i(ops::SET_LOCAL, 0, 0, 0, 0, 0)).with_locals());
    refused(3, (1, 2), last(i(ops::SET_LOCAL, 0, 0, 300, 0, 0)));
    refused(2, NEITHER, last(i(ops::SET_LOCAL, 0, 0, 65536, 0, 0)));
    refused(1, NEITHER, last(i(ops::SET_LOCAL, 65, 0, 65536, 1, 0)));
    // The first field in byte order counts, whatever the number.
    refused(4, (1, 0), |d| {
        d.chunks[1].code[0].given = 0;
        d.chunks[1].code[1].a = 1;
    });
    // 3 in field 1 after 2 and 1 there.
    refused(3, NEITHER, |d| d.header.entry = 9);
    refused(2, NEITHER, |d| (d.header.entry, d.header.slots) = (9, 1025));
    refused(1, NEITHER, |d| (d.header.entry, d.header.slots, d.header.owns_bodies) = (9, 1025, 2));
}
trait WithLocals {
    fn with_locals(self) -> impl FnOnce(&mut Description);
}
impl<F: FnOnce(&mut Description)> WithLocals for F {
    fn with_locals(self) -> impl FnOnce(&mut Description) {
        move |d| {
            d.chunks[1].locals = 1;
            self(d)
        }
    }
}

#[test]
fn chunks_past_the_signatures() {
    let past = |change: fn(&mut Chunk)| {
        move |d: &mut Description| {
            d.header.signatures = 1;
            d.chunks[1].signature = None;
            change(&mut d.chunks[1]);
        }
    };
    passes(past(|_| {}));
    passes(past(|chunk| chunk.tags = vec![0; 16]));
    refused(1, NEITHER, past(|chunk| chunk.tags = vec![8]));
    refused(2, NEITHER, past(|chunk| chunk.tags = vec![0; 17]));
    refused(2, NEITHER, past(|chunk| chunk.deepest = 65));
    // Parameter shapes there are bytes too many.
    refused(1, NEITHER, past(|chunk| chunk.signature = Some(Signature::default())));
    refused(1, NEITHER, |d| d.chunks[1].signature = None);
}
