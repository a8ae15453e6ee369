//! The calls, the index and the refusals.

#![cfg(feature = "alloc")]

mod common;

use common::{LIMIT, WORKED, replayed};
use genduvo::description::{BlockType, Chunk, Description, Instruction, Op, text_to_bytes};
use genduvo::{
    Accepted, AcceptedIndexed, By, Entry, Index, Reason, Refusal, Sizes, check, check_indexed, lookup, sizes, words,
};

/// The index of the worked report.
const WORKED_INDEX: [u8; 36] = [
    0, 0, 0, 0, 61, 0, 0, 0, 66, 0, 0, 0, //
    0, 0, 1, 0, 127, 0, 0, 0, 115, 0, 0, 0, //
    0, 0, 2, 0, 242, 0, 0, 0, 64, 0, 0, 0,
];

/// The worked case with so many bytes lent for report and index; what is left in the workspace and in both.
fn worked(report: usize, index: usize) -> (Result<AcceptedIndexed, Refusal>, Vec<u32>, Vec<u8>, Vec<u8>) {
    let mut workspace = vec![7; words(WORKED).expect("good form")];
    let (mut report, mut index) = (vec![8; report], vec![9; index]);
    let outcome = check_indexed(WORKED, &mut workspace, &mut report, &mut index, 6);
    (outcome, workspace, report, index)
}

#[test]
fn the_worked_sizes() {
    assert_eq!(sizes(WORKED), Ok(Sizes { words: words(WORKED).expect("good form"), report: 314 }));
    assert_eq!(sizes(&WORKED[..60]), Err(words(&WORKED[..60]).expect_err("cut off")));
}

/// A chunk of one instruction behind a good one.
fn described(instruction: Instruction) -> Vec<u8> {
    let mut chunk = Chunk::new(BlockType::FUNC).locals(1).deepest(2);
    chunk.push(Instruction::usual(Op::PUSH_IMMEDIATE, 0).expect("it has one"));
    chunk.push(instruction);
    let mut description = Description::new();
    description.push(Chunk::new(BlockType::FUNC));
    description.push(chunk);
    description.to_bytes()
}

#[test]
fn refusals_of_form_keep_their_place() {
    let far = Instruction::new(Op::GET_LOCAL, 0, 1, [1, 0, 0]);
    let unfit = Instruction::new(Op::NOT, 0, 1, [0; 3]);
    let siteless = Instruction::new(Op::YIELD, 1, 1, [0; 3]);
    let nameless = Instruction::new(Op(66), 0, 0, [0; 3]);
    let (there, nowhere) = (Some((1, 1)), None);
    let faults = [
        (far, Reason::BadReference, there),
        (unfit, Reason::BadEffect, there),
        (siteless, Reason::BadReference, there),
        (nameless, Reason::BadForm, nowhere),
    ];
    for (instruction, reason, place) in faults {
        let bytes = described(instruction);
        let (chunk, instruction) = (place.map(|place| place.0), place.map(|place| place.1));
        let refusal = Refusal { reason, chunk, instruction, steps: 0 };
        assert_eq!(words(&bytes), Err(refusal));
        assert_eq!(sizes(&bytes), Err(refusal));
        assert_eq!(check(&bytes, &mut [0; 10], &mut [0; 10], LIMIT), Err(refusal));
    }
    // A fault of a chunk names no instruction.
    let mut description = Description::from_bytes(&described(far)).expect("read");
    description.chunks[1].code.clear();
    description.chunks[1] = description.chunks[1].clone().locals(0).parameter(Default::default(), Default::default());
    let refusal = Refusal { reason: Reason::BadReference, chunk: Some(1), instruction: None, steps: 0 };
    assert_eq!(sizes(&description.to_bytes()), Err(refusal));
    assert_eq!(words(&description.to_bytes()), Err(refusal));
}

#[test]
fn too_long_a_description() {
    let longest = vec![1; genduvo::LONGEST + 1];
    assert_eq!(sizes(&longest).map_err(|refusal| refusal.reason), Err(Reason::TooLarge));
    assert_eq!(sizes(&longest[1..]).map_err(|refusal| refusal.reason), Err(Reason::BadForm));
}

#[test]
fn the_worked_index_byte_by_byte() {
    let (outcome, workspace, report, index) = worked(306, 40);
    assert_eq!(outcome, Ok(AcceptedIndexed { length: 306, index_length: 36, steps: 6 }));
    assert_eq!(index, [&WORKED_INDEX[..], &[9; 4]].concat());
    assert!(workspace.iter().all(|word| *word == 0));
    let mut alone = [8; 306];
    assert_eq!(check(WORKED, &mut [0; 433], &mut alone, 6), Ok(Accepted { length: 306, steps: 6 }));
    assert_eq!(report, alone);
}

#[test]
fn buffers_one_byte_short() {
    assert!(worked(306, 36).0.is_ok());
    let (index, report) = (Reason::IndexTooShort, Reason::ReportTooLong);
    for (lent, reason) in
        [((306, 35), index), ((306, 0), index), ((305, 36), report), ((305, 35), report), ((0, 0), report)]
    {
        let (outcome, workspace, report, index) = worked(lent.0, lent.1);
        assert_eq!(outcome, Err(Refusal { reason, chunk: None, instruction: None, steps: 6 }), "{lent:?}");
        assert!(workspace.iter().all(|word| *word == 0), "{lent:?}");
        assert!(report.iter().all(|byte| *byte == 8) && index.iter().all(|byte| *byte == 9), "{lent:?}");
    }
}

#[test]
fn memory_that_is_too_small() {
    let least = words(WORKED).expect("good form");
    let refused = |words: usize, limit: u32| check(WORKED, &mut vec![0; words], &mut [0; 400], limit).unwrap_err();
    let short = Refusal { reason: Reason::WorkspaceTooSmall, chunk: None, instruction: None, steps: 0 };
    assert_eq!(refused(least - 1, LIMIT), short);
    let late = Refusal { reason: Reason::LimitUsedUp, chunk: Some(0), instruction: Some(2), steps: 5 };
    assert_eq!(refused(least, 5), late);
    let said = "refused 7 (host): an entry due with the step limit used up: allow more steps, at chunk 0, \
                instruction 2, after 5 steps";
    assert_eq!(late.to_string(), said);
}

/// Refused 8 with the least workspace, and accepted with some words more.
#[test]
fn a_queue_that_is_full() {
    let path = common::in_repository("oracle/examples/refused-8.txt");
    let description = text_to_bytes(&common::text(&path)).expect("a text");
    let Sizes { words, report: most } = sizes(&description).expect("good form");
    let call = |more: usize| {
        let (mut workspace, mut report) = (vec![0; words + more], vec![0; most]);
        let accepted = check(&description, &mut workspace, &mut report, LIMIT)?;
        report.truncate(accepted.length);
        Ok::<_, Refusal>(report)
    };
    assert_eq!(call(0).map_err(|refusal| refusal.reason), Err(Reason::QueueFull));
    assert!(call(1).is_ok());
    assert_eq!(call(1), call(1000));
}

#[test]
fn the_entries_of_an_index() {
    let index = Index::new(&WORKED_INDEX);
    let second = Entry { chunk: 0, instruction: 1, first: 127, length: 115 };
    assert_eq!((index.len(), index.is_empty(), index.get(1), index.get(3)), (3, false, Some(second), None));
    assert_eq!(index.entries().map(|entry| entry.length).collect::<Vec<_>>(), [66, 115, 64]);
    let cut = Index::new(&WORKED_INDEX[..35]);
    assert_eq!((cut.len(), cut.get(1), cut.get(2)), (2, Some(second), None));
    assert!(Index::new(&WORKED_INDEX[..11]).is_empty());
    assert_eq!(index.bytes(), WORKED_INDEX);
}

#[test]
fn through_the_worked_index() {
    let (_, _, report, _) = worked(306, 36);
    let index = Index::new(&WORKED_INDEX);
    for (chunk, instruction) in [(0, 0), (0, 1), (0, 2), (0, 3), (1, 0), (65535, 65535)] {
        let walked = lookup(&report, chunk, instruction);
        assert_eq!(walked.is_some(), chunk == 0 && instruction < 3);
        assert_eq!(index.lookup(&report, chunk, instruction), Ok(walked), "{chunk} {instruction}");
    }
    assert_eq!(index.lookup(&report, 0, 2), Ok(Some(&report[242..])));
    let disagrees = Err(Reason::IndexDisagrees);
    for bit in 0..8 * WORKED_INDEX.len() {
        let mut turned = WORKED_INDEX;
        turned[bit / 8] ^= 1 << (bit % 8);
        assert_eq!(Index::new(&turned).lookup(&report, 0, 0), disagrees, "bit {bit}");
    }
    for cut in 0..WORKED_INDEX.len() {
        assert_eq!(Index::new(&WORKED_INDEX[..cut]).lookup(&report, 0, 0), disagrees, "{cut} bytes");
    }
    let longer = [&WORKED_INDEX[..], &[0, 0, 3, 0, 50, 1, 0, 0, 15, 0, 0, 0]].concat();
    for end in WORKED_INDEX.len() + 1..=longer.len() {
        assert_eq!(Index::new(&longer[..end]).lookup(&report, 0, 0), disagrees, "{end} bytes");
    }
}

#[test]
fn records_that_do_not_rise() {
    let sought = |report: &[u8], index: &[u8]| {
        Index::new(index).lookup(report, 0, 0).map(|part| part.map(<[u8]>::to_vec)).map_err(Reason::number)
    };
    let (one, nought) = ([0, 0, 1, 0, 0, 0, 0, 0, 7, 0, 0, 0], [0, 0, 0, 0, 7, 0, 0, 0, 7, 0, 0, 0]);
    let falling = [19, 4, 0, 0, 0, 1, 0, 19, 4, 0, 0, 0, 0, 0];
    assert_eq!(sought(&falling, &[nought, one].concat()), Ok(Some(falling[7..].to_vec())));
    assert_eq!(sought(&falling, &[one, nought].concat()), Err(20));
    let twice = [19, 4, 0, 0, 0, 0, 0, 19, 4, 0, 0, 0, 0, 0];
    let first = [0, 0, 0, 0, 0, 0, 0, 0, 7, 0, 0, 0];
    for index in [&[][..], &first, &nought, &[first, nought].concat(), &[nought, first].concat()] {
        assert_eq!(sought(&twice, index), Err(20), "{index:?}");
    }
    assert_eq!(sought(&[], &[]), Ok(None));
    assert_eq!(sought(&[19, 3, 0, 0, 0, 0], &[]), Ok(None));
    assert_eq!(sought(&[19, 3, 0, 0, 0, 0], &first), Err(20));
}

#[test]
fn reasons_by_number() {
    for (number, reason) in (1..).zip(Reason::ALL) {
        assert_eq!((reason.number(), Reason::from_number(number)), (number as u8, Some(reason)));
        assert!(reason.to_string().starts_with(&format!("{number} ({}): {}", reason.by(), reason.meaning())));
    }
    assert_eq!([0, 21, 256 + 13, u32::MAX].map(Reason::from_number), [None; 4]);
    assert_eq!(Reason::KindsNotProven.to_string(), "13 (script author): kinds not proven");
    let whose = |by: By| Reason::ALL.into_iter().filter(move |reason| reason.by() == by).map(Reason::number);
    assert_eq!(whose(By::Exporter).collect::<Vec<_>>(), [1, 2, 3, 4]);
    assert_eq!(whose(By::Host).collect::<Vec<_>>(), [5, 6, 7, 8, 19, 20]);
    assert_eq!(whose(By::Author).collect::<Vec<_>>(), [9, 10, 11, 12, 13, 14, 15, 16, 17, 18]);
}

#[test]
fn replayed_descriptions_are_answered_as_the_oracle_did() {
    let all = replayed();
    assert!(all.len() > 2000, "{}", all.len());
    let mut workspace = vec![0; all.iter().map(|one| one.words).max().expect("some")];
    for (number, one) in all.iter().enumerate() {
        let mut report = vec![0; one.buffer];
        let outcome = check(&one.description, &mut workspace[..one.words], &mut report, one.limit);
        let refused = outcome.err().map_or(0, |refusal| refusal.reason.number());
        assert_eq!(refused, one.number, "description {number}");
        let length = outcome.map_or(0, |accepted| accepted.length);
        assert_eq!(report[..length], one.report, "description {number}");
    }
}
