//! The examples' answers, one description for each refusal, and the bounds of
//! workspace, limit and report buffer.

use oracle::judged::{Text, text_of};
use oracle::model::*;
use oracle::run::{Outcome, Refusal, check, check_by, measure, not_proven_at};

const NO: u16 = 65535;

fn example(name: &str) -> Description {
    let folder = std::env::var("ORACLE_DIR").expect("ORACLE_DIR");
    let path = format!("{folder}/examples/{name}.txt");
    Description::from_text(&std::fs::read_to_string(&path).expect(&path)).expect("the example parses")
}
fn ample(d: &Description) -> Outcome {
    check(&d.encode(), 16384, 16384, 1_000_000)
}
fn refused(number: u8, chunk: u16, instruction: u16, steps: u32) -> Outcome {
    Outcome::Refused(Refusal { number, chunk, instruction, steps })
}
fn parsed(text: &str) -> Description {
    Description::from_text(text).expect("the text parses")
}
fn listing(name: &str) -> String {
    let folder = std::env::var("ORACLE_DIR").expect("ORACLE_DIR");
    let out = std::process::Command::new(format!("{folder}/target/oracle"))
        .args(["check", &format!("{folder}/examples/{name}.txt")])
        .output()
        .expect("the program runs");
    String::from_utf8(out.stdout).expect("text")
}

/// The listing of what a text says, whichever judges the description.
fn listing_by(text: Text, d: &Description) -> String {
    oracle::listing::listing(&check_by(text, &d.encode(), 16384, 16384, 1_000_000))
}

#[test]
fn worked_cases() {
    let whole = "accepted 6 reply 0\n0 0 stack - locals -\n0 1 stack 2 locals -\n0 2 stack 4096 locals -\n";
    assert_eq!(listing("worked"), whole);
    assert_eq!(listing("worked-kind-3"), "refused 13 0 2 6\n");
}

#[test]
fn the_worked_report_byte_by_byte() {
    let Outcome::Accepted { report, steps } = ample(&example("worked")) else { panic!("accepted") };
    assert_eq!(steps, 6);
    let cell = |mask: u16, width: u8, size: u8| {
        let mut out = mask.to_le_bytes().to_vec();
        out.extend([width, size, 0, 0, 0]);
        out.extend([0; 36]);
        out.extend([0, 255, 255, 255, 255, 0]);
        out
    };
    let mut expected = vec![16, 4, 0, 0, 0, 0, 0];
    expected.extend([17, 51, 0, 0, 0]);
    expected.extend(cell(4098, 0, 0));
    let record = |ip: u8, stack: &[u16], outputs: &[u16]| {
        let length = 12 + 49 * stack.len() + 51 * outputs.len();
        let mut out = vec![19, length as u8, 0, 0, 0, ip, 0, stack.len() as u8, 0, 0, 0, outputs.len() as u8, 0, 0, 0];
        for mask in stack {
            out.extend(cell(*mask, 1, 1));
        }
        for mask in outputs {
            out.extend([0, 0]);
            out.extend(cell(*mask, 1, 1));
        }
        out
    };
    expected.extend(record(0, &[], &[2]));
    expected.extend(record(1, &[2], &[4096]));
    expected.extend(record(2, &[4096], &[]));
    assert_eq!(report, expected);
}

/// A cell's bytes: mask, width, size, four extents, owned, origin, receiver, when.
type Extent = (u8, u32, u32);
fn cell(mask: u16, width: (u8, u32), extents: [Extent; 4], owned: u8, origin: u16, predicate: (u16, u8)) -> Vec<u8> {
    let mut out = mask.to_le_bytes().to_vec();
    out.push(width.0);
    out.extend(width.1.to_le_bytes());
    for (form, min, max) in extents {
        out.push(form);
        out.extend(min.to_le_bytes());
        out.extend(max.to_le_bytes());
    }
    out.push(owned);
    out.extend(origin.to_le_bytes());
    out.extend(predicate.0.to_le_bytes());
    out.push(predicate.1);
    out
}
fn record(name: &str, chunk: u16, instruction: u16) -> Vec<u8> {
    let Outcome::Accepted { report, .. } = ample(&example(name)) else { panic!("{name} is accepted") };
    oracle::lookup::lookup(&report, chunk, instruction).to_vec()
}

#[test]
fn every_part_of_a_cell() {
    let all = [(1, 16, 16); 4];
    let none = [(0, 0, 0); 4];
    // After IsEnum: the receiver with its origin, the test with its predicate.
    let mut expected = vec![19, 12 + 3 * 49, 0, 0, 0, 2, 0, 2, 0, 1, 0, 0, 0, 0, 0];
    expected.extend(cell(3840, (2, 16), all, 0, 0, (NO, 0)));
    expected.extend(cell(4098, (1, 1), none, 0, NO, (0, 1)));
    expected.extend(cell(3840, (2, 16), all, 0, NO, (NO, 0)));
    assert_eq!(record("narrowed", 0, 2), expected);
    // On the way where it holds both are narrowed; the other extents stay.
    let mut expected = vec![19, 12 + 2 * 49, 0, 0, 0, 3, 0, 1, 0, 1, 0, 0, 0, 0, 0];
    expected.extend(cell(2048, (2, 16), all, 0, 0, (NO, 0)));
    expected.extend(cell(2048, (2, 16), all, 0, NO, (NO, 0)));
    assert_eq!(record("narrowed", 0, 3), expected);
    // A reply's body is owned; its field read gives an output.
    let mut expected = vec![19, 12 + 49 + 51, 0, 0, 0, 2, 0, 1, 0, 0, 0, 1, 0, 0, 0];
    expected.extend(cell(256, (2, 16), [(1, 16, 16), (0, 0, 0), (0, 0, 0), (0, 0, 0)], 1, NO, (NO, 0)));
    expected.extend([0, 0]);
    expected.extend(cell(8, (1, 8), none, 0, NO, (NO, 0)));
    assert_eq!(record("yield", 0, 2), expected);
}

#[test]
fn guards() {
    // Both slots' kinds are asked of the value, at stack place 0.
    let both = record("guard-0", 0, 2);
    assert_eq!(&both[3..15], &[0, 0, 2, 0, 2, 0, 1, 0, 1, 0, 1, 0]);
    assert_eq!(&both[both.len() - 4..], &[0, 0, 0, 0]);
    // One slot only: the guard is its kind.
    let mut d = example("guard-0");
    d.chunks[0].code[2].b = 1;
    let Outcome::Accepted { report, .. } = ample(&d) else { panic!("accepted") };
    let one = oracle::lookup::lookup(&report, 0, 2);
    assert_eq!(&one[one.len() - 4..], &[0, 0, 0, 1]);
    // The places rise, 0 and 1, though their masks, 512 and 8, fall.
    let two = record("guards", 1, 2);
    assert_eq!(&two[13..15], &[2, 0]);
    assert_eq!(&two[two.len() - 8..], &[0, 0, 0, 2, 1, 0, 8, 0]);
    // A value that has the kind wants no guard.
    d.chunks[0].signature.as_mut().unwrap().params[0].kind = 0;
    let Outcome::Accepted { report, .. } = ample(&d) else { panic!("accepted") };
    assert_eq!(oracle::lookup::lookup(&report, 0, 2)[13..15], [0, 0]);
}

/// A report without reply, with one chunk: its inputs and result, the slots, then for
/// each instruction the stack, the locals and the outputs from this place on.
fn report_of(signature: &[Vec<u8>], slots: &[Vec<u8>], locals: &[Vec<u8>], records: &[(Vec<Vec<u8>>, u8, Vec<Vec<u8>>)]) -> Vec<u8> {
    let mut out = vec![16, 4, 0, 0, 0, 0, 0];
    let mut field = |tag: u8, contents: Vec<u8>| {
        out.push(tag);
        put16(&mut out, contents.len() as u16);
        out.extend(contents);
    };
    field(17, [vec![0, 0], signature.concat()].concat());
    slots.iter().for_each(|slot| field(18, slot.clone()));
    for (ip, (stack, place, outputs)) in records.iter().enumerate() {
        let head = [0, 0, ip as u8, 0, stack.len() as u8, 0, locals.len() as u8, 0, outputs.len() as u8, 0, 0, 0];
        let outputs = outputs.iter().zip(*place..).map(|(cell, place)| [vec![place, 0], cell.clone()].concat());
        field(19, [head.to_vec(), stack.concat(), locals.concat(), outputs.collect::<Vec<_>>().concat()].concat());
    }
    out
}

/// The examples with handles, each byte worked by hand. The evaluated cases of the
/// definition have these answers too (oracle/cases).
#[test]
fn handles_worked_by_hand() {
    let none = [(0, 0, 0); 4];
    let of = |mask, width, extents, origin| cell(mask, width, extents, 0, origin, (NO, 0));
    let handle = |origin| of(128, (0, 0), none, origin);
    // Five instructions, three times: the slot takes the tuple, nothing more changes, validation.
    let four = [(1, 4, 4), (0, 0, 0), (0, 0, 0), (0, 0, 0)];
    let tuple = || of(256, (2, 4), four, NO);
    let records = [
        (vec![], 0, vec![handle(0)]),
        (vec![handle(0)], 0, vec![tuple()]),
        (vec![tuple()], 0, vec![]),
        (vec![], 0, vec![tuple()]),
        (vec![tuple()], 0, vec![]),
    ];
    let report = report_of(&[handle(NO), tuple()], &[of(256, (0, 0), four, NO)], &[handle(NO)], &records);
    assert_eq!(ample(&example("handle-4")), Outcome::Accepted { report, steps: 15 });
    // Eight bytes do not pack into four; two rounds, then validation comes to it.
    assert_eq!(ample(&example("handle-8")), refused(15, 0, 1, 12));

    // A word, or the handle in its stead: 4 to 8 bytes; then the handle's 4, then the float's 8. From 5 on the way
    // past the If comes first, and each is visited again when the handle comes: 13 takings, and again in validation.
    let truth = |origin| of(4098, (1, 1), none, origin);
    let float = |origin| of(32, (1, 8), none, origin);
    let word = || of(8, (1, 8), none, NO);
    let either = || of(136, (0, 0), none, NO);
    let array = || of(512, (0, 0), [(0, 0, 0), (1, 16, 20), (0, 0, 0), (0, 0, 0)], NO);
    let records = [
        (vec![], 0, vec![word()]),
        (vec![word()], 1, vec![truth(0)]),
        (vec![word(), truth(0)], 1, vec![]),
        (vec![word()], 0, vec![]),
        (vec![], 0, vec![handle(1)]),
        (vec![either()], 1, vec![handle(1)]),
        (vec![either(), handle(1)], 2, vec![float(2)]),
        (vec![either(), handle(1), float(2)], 0, vec![array()]),
        (vec![array()], 0, vec![]),
    ];
    let inputs = [truth(NO), handle(NO), float(NO)];
    let anything = of(8191, (0, 0), [(2, 0, 0); 4], NO);
    let report = report_of(&[&inputs[..], &[anything]].concat(), &[], &inputs, &records);
    assert_eq!(ample(&example("handle-or-word")), Outcome::Accepted { report, steps: 26 });
}

/// A word in a local, inspected: the first five records of the examples that begin so.
const INSPECTED_WORD: &str = "0 0 stack - locals 1
0 1 stack 8 locals 1
0 2 stack - locals 8
0 3 stack 8 locals 8
0 4 stack 8 2 locals 8
";

/// In the first of two rounds the slot has no kind, nor has the condition: of the If's
/// ways the one to 5 is cut. Then the condition is known. Seven instructions, three times;
/// with a way to 5 there were one more.
#[test]
fn a_way_cut_in_the_first_round() {
    let rest = "0 6 stack 8 locals 8\n0 7 stack 8 8 locals 8\ninspection 0 3\nbranch 0 4 0\n";
    assert_eq!(listing("cut"), format!("accepted 21 reply 0\n{INSPECTED_WORD}{rest}"));
}

/// Branches to the next instruction, worked by hand: a single way, without narrowing and
/// never cut; what types.rs itself says beside it. The evaluated cases of the definition
/// have the first of each two answers (oracle/cases).
#[test]
fn branches_to_the_next_worked_by_hand() {
    let both = |name: &str| (listing(name), listing_by(Text::TYPES, &example(name)));
    // Nine instructions, in a round and in validation. types.rs cuts the way after the sixth.
    let tested = format!("{INSPECTED_WORD}0 5 stack 8 4096 locals 8\n");
    let rest = "0 6 stack 8 locals 8\n0 7 stack - locals 8\n0 8 stack 1 locals 8\n";
    let listed = "inspection 0 3\nbranch 0 5 1\n";
    let types = format!("accepted 12 reply 0\n{tested}{listed}");
    assert_eq!(both("next-if"), (format!("accepted 18 reply 0\n{tested}{rest}{listed}"), types));
    // Eight; types.rs cuts after the fifth.
    let rest = "0 5 stack 8 locals 8\n0 6 stack - locals 8\n0 7 stack 1 locals 8\n";
    let listed = "inspection 0 3\nbranch 0 4 0\n";
    let types = format!("accepted 10 reply 0\n{INSPECTED_WORD}{listed}");
    assert_eq!(both("next-break-if"), (format!("accepted 16 reply 0\n{INSPECTED_WORD}{rest}{listed}"), types));
    // Four; types.rs cuts the way after the third.
    let word = "0 0 stack - locals 8\n0 1 stack 8 locals 8\n0 2 stack 8 2 locals 8\n";
    let listed = "inspection 0 1\nbranch 0 2 0\n";
    let whole = format!("accepted 8 reply 0\n{word}0 3 stack 8 locals 8\n{listed}");
    assert_eq!(both("next-cut"), (whole, format!("accepted 6 reply 0\n{word}{listed}")));
    // Four; types.rs narrows both ways, which are one.
    let tested = "0 0 stack - locals 3840\n0 1 stack 3840 locals 3840\n0 2 stack 3840 4098 locals 3840\n";
    let ends = |mask: &str| format!("accepted 8 reply 16\n{tested}0 3 stack {mask} locals {mask}\n");
    assert_eq!(both("next-narrowed"), (ends("3840"), ends("2048")));
    // Three, and nothing leaves the last; types.rs says the same.
    let whole = format!("accepted 6 reply 16\n{tested}");
    assert_eq!(both("next-last"), (whole.clone(), whole));
    // Three, the branch listed; types.rs says the same.
    let whole = "accepted 6 reply 0\n0 0 stack - locals -\n0 1 stack 2 locals -\n0 2 stack - locals -\nbranch 0 1 0\n";
    assert_eq!(both("next-known"), (whole.into(), whole.into()));
}

/// Masks, widths, extents and origin stay as they were before the test.
#[test]
fn nothing_of_a_cell_is_narrowed_to_the_next() {
    let all = [(1, 16, 16); 4];
    let mut expected = vec![19, 12 + 2 * 49, 0, 0, 0, 3, 0, 1, 0, 1, 0, 0, 0, 0, 0];
    expected.extend(cell(3840, (2, 16), all, 0, 0, (NO, 0)));
    expected.extend(cell(3840, (2, 16), all, 0, NO, (NO, 0)));
    assert_eq!(record("next-narrowed", 0, 3), expected);
}

/// A handle of four bytes and a branch to the next instruction: either change alone, and
/// types.rs itself, answers otherwise.
#[test]
fn both_changes_in_one_copy() {
    let d = parsed(
        "header float=6 handle=4
        chunk L=2 D=2 params=2 tags=Composite,Composite shapes=Flat:4:b16,Scalar:7:? returns=Top:0:?
        GetLocal 0 : 0 1
        IsEnum : 1 2
        BreakIf 3 : 1 0
        GetLocal 1 : 0 1
        NewComposite flat 0 4 : 1 1
        Return : 0 0",
    );
    let both = Text { handle_4: true, next_branch: true };
    assert_eq!(text_of(&d), both);
    // The receiver from the fourth instruction on.
    let whole = |mask: &str| {
        let tested = "0 0 stack - locals 3840 128\n0 1 stack 3840 locals 3840 128\n0 2 stack 3840 4098 locals 3840 128\n";
        let rest = "0 3 stack M locals M 128\n0 4 stack M 128 locals M 128\n0 5 stack M 256 locals M 128\n";
        format!("accepted 12 reply 16\n{tested}{}", rest.replace('M', mask))
    };
    assert_eq!(ample(&d), check_by(both, &d.encode(), 16384, 16384, 1_000_000));
    assert_eq!(listing_by(both, &d), whole("3840"));
    assert_eq!(listing_by(Text { next_branch: false, ..both }, &d), whole("2048"));
    // Eight bytes do not pack into four: a round, then validation comes to it.
    assert_eq!(listing_by(Text { handle_4: false, ..both }, &d), "refused 15 0 4 11\n");
    assert_eq!(listing_by(Text::TYPES, &d), "refused 15 0 4 11\n");
}

/// Parameters of these scalar kinds, packed into a tuple of so many bytes.
fn tuple(float: u8, handle: u8, kinds: &[u8], size: u32) -> Outcome {
    let count = kinds.len();
    let shapes: Vec<String> = kinds.iter().map(|kind| format!("Scalar:{kind}:?")).collect();
    let reads: String = (0..count).map(|local| format!("GetLocal {local} : 0 1\n")).collect();
    ample(&parsed(&format!(
        "header float={float} handle={handle}
         chunk L={count} D={count} params={count} shapes={} returns=Top:0:?
         {reads}NewComposite flat 0 {size} : {count} 1\nReturn : 0 0",
        shapes.join(",")
    )))
}

/// Floats of 4 and 8 bytes beside handles of 4 and 8.
#[test]
fn packed_sizes_over_both_sizes() {
    let lists: [&[u8]; 8] = [&[5], &[7], &[5, 7], &[7, 5, 7], &[5, 7, 5], &[7, 7], &[3, 7, 0], &[0, 1, 2, 3, 4, 5, 7]];
    let mut sums = Vec::new();
    for (float_bits_log2, float) in [(5, 4), (6, 8)] {
        for handle in [4, 8] {
            for kinds in lists {
                // Unit, bool, byte, word, fixed, float, text (packs nowhere), handle.
                let bytes = [0, 1, 1, 8, 8, float, 0, u32::from(handle)];
                let sum: u32 = kinds.iter().map(|kind| bytes[usize::from(*kind)]).sum();
                let count = kinds.len();
                // Room enough leaves the extent as it is; one byte less is refused.
                for room in [sum, sum + 1, 65535] {
                    let outcome = tuple(float_bits_log2, handle, kinds, room);
                    let Outcome::Accepted { report, .. } = outcome else { panic!("{outcome:?}") };
                    let record = oracle::lookup::lookup(&report, 0, count as u16 + 1);
                    let extents = [(1, sum, sum), (0, 0, 0), (0, 0, 0), (0, 0, 0)];
                    assert_eq!(&record[15..64], cell(256, (2, sum), extents, 0, NO, (NO, 0)), "{float} {handle} {kinds:?}");
                }
                let outcome = tuple(float_bits_log2, handle, kinds, sum - 1);
                assert_eq!(outcome, refused(15, 0, count as u16, 2 * count as u32 + 3), "{float} {handle} {kinds:?}");
                sums.push(sum);
            }
        }
    }
    // Worked by hand: a float; a handle; both; two handles and a float; two floats and a handle; two handles; a word,
    // a handle and a unit; all seven.
    let four_four = [4, 4, 8, 12, 12, 8, 12, 26];
    let four_eight = [4, 8, 12, 20, 16, 16, 16, 30];
    let eight_four = [8, 4, 12, 16, 20, 8, 12, 30];
    let eight_eight = [8, 8, 16, 24, 24, 16, 16, 34];
    assert_eq!(sums, [four_four, four_eight, eight_four, eight_eight].concat());
}

#[test]
fn words_of_a_workspace() {
    // 16 x (3 x (0+1+6) + 0 + 2, 4 x (1+2+6) + 1 + 2, and 4).
    assert_eq!(example("call").least_words(), 16 * (21 + 2 + 36 + 3 + 4));
    // Slots count; so does an unreachable chunk.
    assert_eq!(example("private").least_words(), 16 * (6 * 8 + 2 + 2 + 4));
    let mut d = example("call");
    d.chunks[1].reachable = 0;
    assert_eq!(d.least_words(), example("call").least_words());
    // A chunk past the signatures has no parameters.
    (d.header.signatures, d.chunks[1].signature) = (1, None);
    assert_eq!(d.least_words(), example("call").least_words() - 16);
}

#[test]
fn examples() {
    let accepted = [
        ("call", 21), ("composites", 26), ("cut", 21), ("guard-0", 8), ("guards", 24), ("loop", 36), ("narrowed", 20), ("native", 12),
        ("placements", 27), ("private", 18), ("recursion", 36), ("stream", 24), ("yield", 8),
    ];
    for (name, steps) in accepted {
        let outcome = ample(&example(name));
        assert!(matches!(outcome, Outcome::Accepted { steps: s, .. } if s == steps), "{name}: {outcome:?}");
    }
    assert!(listing("narrowed").starts_with("accepted 20 reply 16\n"));
}

#[test]
fn one_for_each_refusal_from_9_on() {
    let with = |change: fn(&mut Description)| {
        let mut d = example("call");
        change(&mut d);
        ample(&d)
    };
    assert_eq!(with(|d| d.chunks[1].param_count = 0), refused(9, 1, NO, 0));
    assert_eq!(with(|d| d.chunks[1].code.clear()), refused(9, 1, NO, 0));
    assert_eq!(
        with(|d| {
            d.header.signatures = 1;
            d.chunks[1].signature = None;
            d.chunks[0].code.remove(1);
        }),
        refused(9, 1, NO, 0)
    );
    assert_eq!(with(|d| d.chunks[1].tags[0] = 1), refused(10, 1, NO, 0));
    // 9 and 10 by chunk: the first chunk's 10 before the second's 9.
    assert_eq!(
        with(|d| {
            d.chunks[1].tags[0] = 1;
            let third = Chunk { param_count: 3, ..d.chunks[1].clone() };
            d.chunks.push(third);
            (d.header.chunks, d.header.signatures) = (3, 3);
        }),
        refused(10, 1, NO, 0)
    );
    // An unreachable chunk is not looked at.
    assert!(matches!(
        with(|d| {
            let third = Chunk { param_count: 3, reachable: 0, ..d.chunks[1].clone() };
            d.chunks.push(third);
            (d.header.chunks, d.header.signatures) = (3, 3);
        }),
        Outcome::Accepted { .. }
    ));
    let unbounded = "header float=6\nchunk block=Reentrant L=0 D=1 returns=Top:0:?
        PushImmediate 1 : 0 1\nYield : 1 1\nsite Top:0:? Flat:0:?\nReturn : 0 0";
    assert_eq!(ample(&parsed(unbounded)), refused(11, NO, NO, 0));
    let past = "header float=6 layout=1 slots=2\nchunk L=0 D=1 returns=Scalar:1:?
        PushImmediate 1 : 0 1\nReturn : 0 0\nshared 3\ninit Int 0\ninit Int 0";
    assert_eq!(ample(&parsed(past)), refused(12, NO, NO, 0));
    for (name, outcome) in [
        ("refused-13", refused(13, 0, 1, 5)),
        ("refused-14", refused(14, 0, 2, 3)),
        ("refused-15", refused(15, 0, 2, 7)),
        ("refused-16", refused(16, 0, 1, 8)),
        ("refused-17", refused(17, 0, 1, 8)),
        ("refused-18", refused(18, 0, 2, 3)),
    ] {
        assert_eq!(ample(&example(name)), outcome, "{name}");
    }
}

#[test]
fn one_for_each_refusal_up_to_8() {
    let bytes = example("worked").encode();
    assert_eq!(check(&bytes[1..], 16384, 16384, 9), refused(1, NO, NO, 0));
    let with = |change: fn(&mut Description)| {
        let mut d = example("worked");
        change(&mut d);
        ample(&d)
    };
    assert_eq!(with(|d| d.header.float_bits_log2 = 32), refused(2, NO, NO, 0));
    assert_eq!(with(|d| d.header.entry = 1), refused(3, NO, NO, 0));
    assert_eq!(with(|d| d.chunks[0].code[1].taken = 0), refused(4, 0, 1, 0));
    // W is 16 x (3 x (0 + 1 + 6) + 0 + 2 + 0 + 4).
    assert_eq!(example("worked").least_words(), 432);
    assert_eq!(check(&bytes, 432, 16384, 9), refused(5, NO, NO, 0));
    assert_eq!(check(&bytes, 0, 0, 0), refused(5, NO, NO, 0));
    assert!(matches!(check(&bytes, 433, 16384, 9), Outcome::Accepted { steps: 6, .. }));
    let length = 7 + 54 + 3 * 15 + 2 * 49 + 2 * 51;
    assert!(matches!(check(&bytes, 433, length, 6), Outcome::Accepted { steps: 6, report } if report.len() == length));
    assert_eq!(check(&bytes, 433, length - 1, 6), refused(6, NO, NO, 6));
    assert_eq!(check(&bytes, 433, 0, 6), refused(6, NO, NO, 6));
    for limit in 0..6 {
        assert_eq!(check(&bytes, 433, length, limit), refused(7, 0, (limit % 3) as u16, limit));
    }
    let two_ways = example("refused-8").encode();
    assert_eq!(check(&two_ways, 657, 16384, 99), refused(8, 0, 1, 2));
    assert!(matches!(check(&two_ways, 658, 16384, 99), Outcome::Accepted { .. }));
    assert_eq!(measure(&two_ways, 658, 16384, 99).most_queued, 2);
}

#[test]
fn the_place_of_13_is_the_texts() {
    let begins = "coroutine scalar types are not proven in";
    assert_eq!(not_proven_at(&format!("{begins} 3 at 17: GetLocal(2)")), Some((3, 17)));
    assert_eq!(not_proven_at(&format!("{begins} 17 at 3: Call(1, 0)")), Some((17, 3)));
    for text in ["3 at 17", "at 17: Len", "3: Len", "3 at : Len", "main at 17: Len", ""] {
        assert_eq!(not_proven_at(&format!("{begins} {text}")), None, "{text}");
    }
    assert_eq!(not_proven_at("coroutine inspection has mixed or unknown receiver kinds"), None);
    // In the second chunk, at its third instruction: the two numbers differ.
    let chunk = "chunk L=0 D=1 returns=Top:0:?";
    let text = format!(
        "header float=6\n{chunk}\nPushImmediate 1 : 0 1\nReturn : 0 0\n
        {chunk}\nPushImmediate 1 : 0 1\nNot : 1 1\nLen : 1 1\nReturn : 0 0"
    );
    assert_eq!(ample(&parsed(&text)), refused(13, 1, 2, 5));
}

#[test]
fn order_within_one_instruction() {
    // Each line: instruction 2 has the faults named, the first one counts.
    let answer = |deepest: u16, code: &str| {
        let text = format!("header float=6\nchunk L=0 D={deepest} returns=Top:0:?\nPushImmediate 4 : 0 1\n{code}");
        ample(&parsed(&text))
    };
    // Underflow before height.
    assert_eq!(answer(1, "PopN : 2 4"), refused(13, 0, 1, 2));
    // Height before joining, also where no way leaves.
    assert_eq!(answer(1, "Trap : 0 1"), refused(18, 0, 1, 2));
    assert_eq!(answer(1, "Return : 0 1"), refused(18, 0, 1, 2));
    assert!(matches!(answer(2, "Return : 0 1"), Outcome::Accepted { .. }));
    // A rule's 13 in the rounds before the height.
    assert_eq!(answer(1, "Len : 0 2"), refused(13, 0, 1, 2));
    // The height in the rounds before 13 in validation.
    assert_eq!(answer(1, "FloatToInt : 1 2"), refused(18, 0, 1, 2));
    assert_eq!(answer(2, "FloatToInt : 1 2\nTrap : 0 0"), refused(13, 0, 1, 5));
    // Way by way: the first way's join and queue before the second's.
    let ways = "header float=6\nchunk L=0 D=2 returns=Top:0:?
        Const Unit : 0 1
        CallExternalNative 0 : 0 1
        If 0 : 1 0
        Trap : 0 0
        native Scalar:1:s1 snapshot=0";
    let d = parsed(ways);
    // The target has height 0, the way 1; the next goes first into a queue of one.
    assert_eq!(check(&d.encode(), d.least_words() + 1, 9999, 99), refused(18, 0, 2, 3));
    // 7 against 16: the validation ends with the limit, 16 comes first.
    assert_eq!(check(&example("refused-16").encode(), 16384, 9999, 8), refused(16, 0, 1, 8));
    assert_eq!(check(&example("refused-16").encode(), 16384, 9999, 7), refused(7, 0, 3, 7));
}

#[test]
fn no_reachable_chunk() {
    let mut d = example("call");
    for chunk in &mut d.chunks {
        chunk.reachable = 0;
    }
    let Outcome::Accepted { report, steps } = check(&d.encode(), 16384, 16384, 0) else { panic!("accepted") };
    assert_eq!((steps, report.len()), (0, 7 + 3 + 2 + 49 + 3 + 2 + 2 * 49));
}

#[test]
fn lookup_answers_the_record() {
    use oracle::lookup::lookup;
    let Outcome::Accepted { report, .. } = ample(&example("worked")) else { panic!("accepted") };
    let record = lookup(&report, 0, 1);
    assert_eq!(&record[..7], &[19, 112, 0, 0, 0, 1, 0]);
    assert_eq!(record.len(), 115);
    let none = lookup(&report, 1, 0);
    assert!(none.is_empty());
    assert_eq!(none.as_ptr(), report[report.len()..].as_ptr());
    // A short field is passed over, an overrun ends the walk.
    let mut odd = vec![19, 3, 0, 0, 0, 1, 19, 4, 0, 0, 0, 1, 0, 19, 5, 0, 0, 0, 1, 0];
    assert_eq!(lookup(&odd, 0, 1), &[19, 4, 0, 0, 0, 1, 0]);
    odd[1] = 4;
    assert!(lookup(&odd, 0, 1).is_empty());
}
