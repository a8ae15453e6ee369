//! What the generator makes: the same for a seed, all outcomes, all
//! instructions, and bounds that fit exactly or fall short by one.

use oracle::description::Op;
use oracle::generate::coverage::over;
use oracle::generate::{generate, made_for, outcome, seed_of, with_measure};
use oracle::judged::{Text, judged, next_branches, text_of};
use oracle::model::Description;
use oracle::run::{Outcome, check, check_by};

#[test]
fn a_seed_gives_the_same_again() {
    for seed in 0..300 {
        assert_eq!(generate(seed), generate(seed));
    }
    assert_ne!(generate(1).bytes, generate(2).bytes);
}

#[test]
fn every_outcome_and_every_instruction_is_reached() {
    let coverage = over(20_000, 7, judged);
    // What damage and chance make is left out: hardly any.
    assert_eq!(coverage.descriptions + coverage.left_out, 20_000);
    assert!(coverage.left_out < 100, "{}", coverage.left_out);
    assert_eq!(coverage.outcomes.iter().sum::<u64>(), coverage.descriptions);
    for (number, count) in coverage.outcomes.iter().enumerate() {
        assert!(*count > 0, "outcome {number}");
    }
    assert!(coverage.outcomes[0] > 5_000, "{:?}", coverage.outcomes);
    for op in 0..66 {
        let name = Op::NAMES[op];
        assert!(coverage.present[op] > 100, "{name}");
        // Len has no rule: it is never recorded in what is accepted.
        assert_eq!(coverage.recorded[op] > 0, name != "Len", "{name}");
        assert!(coverage.recorded[op] <= coverage.accepted[op], "{name}");
    }
}

/// How many of 3000 that are made for a text are judged by it, and how many of these
/// types.rs itself answers otherwise.
fn made_and_otherwise(run: u64, text: Text) -> (u64, u64) {
    let (mut made, mut otherwise) = (0, 0);
    for number in 0..3000 {
        let (one, measured) = made_for(seed_of(run, number), text);
        if Description::decode(&one.bytes).is_none_or(|d| text_of(&d) != text) {
            continue;
        }
        let words = measured.least_words.map_or(0, |least| least + 100_000);
        made += 1;
        otherwise += u64::from(check_by(Text::TYPES, &one.bytes, words, usize::MAX, 20_000) != measured.outcome);
    }
    (made, otherwise)
}

/// What a copy has changed tells in a good part of what is made for it.
#[test]
fn what_is_made_for_a_copy_makes_a_difference() {
    let (handle_4, next_branch) = (Text { handle_4: true, ..Text::TYPES }, Text { next_branch: true, ..Text::TYPES });
    let (made, otherwise) = made_and_otherwise(6, handle_4);
    assert!(made > 2_800 && otherwise > 100, "{made} {otherwise}");
    let (made, otherwise) = made_and_otherwise(6, next_branch);
    assert!(made > 2_550 && otherwise > 600, "{made} {otherwise}");
    let (made, otherwise) = made_and_otherwise(6, Text { handle_4: true, next_branch: true });
    assert!(made > 2_500 && otherwise > 600, "{made} {otherwise}");
    assert_eq!(made_and_otherwise(6, Text::TYPES).1, 0);
}

/// A branch, by what stands before it, what stands after it (`none` past the end) and
/// whose chunk it is in.
fn surroundings(d: &Description, (chunk, at): (usize, usize)) -> [String; 3] {
    let code = &d.chunks[chunk].code;
    let name = |at: usize| code.get(at).map_or("none", |i| Op::NAMES.get(usize::from(i.op)).unwrap_or(&"?"));
    let whose = if chunk == usize::from(d.header.entry) { "the entry" } else { "a callee" };
    let test = name(at);
    let before = at.checked_sub(1).map_or("none", name);
    [format!("{test} after {before}"), format!("{test} before {}", name(at + 1)), format!("{test} in {whose}")]
}

#[test]
fn branches_to_the_next_stand_everywhere() {
    let made = |number| made_for(seed_of(8, number), Text { next_branch: true, ..Text::TYPES }).0;
    let mut seen = std::collections::BTreeMap::new();
    for d in (0..3000).filter_map(|number| Description::decode(&made(number).bytes)) {
        let all = next_branches(&d).flat_map(|place| surroundings(&d, place));
        all.for_each(|what| *seen.entry(what).or_insert(0) += 1);
    }
    let places = [
        "after IsEnum", "after Not", "after PushImmediate", "after GetLocal", "after CmpLt", "after Dup", "before EndIf",
        "before Else", "before EndLoop", "before PopN", "before none", "in the entry", "in a callee",
    ];
    for place in places.iter().flat_map(|place| [format!("If {place}"), format!("BreakIf {place}")]) {
        let count = seen.get(&place).copied().unwrap_or(0);
        assert!(count > 20, "{place}: {count}");
    }
}

#[test]
fn the_outcome_within_bounds_is_that_of_a_run_of_its_own() {
    let (mut same, mut exact, mut short) = (0, 0, 0);
    for number in 0..4000 {
        let (one, measured) = with_measure(seed_of(3, number));
        let quick = outcome(&one, &measured);
        assert_eq!(quick, check(&one.bytes, one.words, one.report_len, one.limit), "{number}");
        same += usize::from(quick == measured.outcome);
        if let Outcome::Accepted { report, steps } = &quick {
            let least = measured.least_words.expect("W") + measured.most_queued.max(1);
            exact += usize::from(one.words == least && one.limit == *steps && one.report_len == report.len());
        }
        short += usize::from((5..=8).contains(&quick.number()));
    }
    assert!(same > 2000 && exact > 30 && short > 300, "{same} {exact} {short}");
}

/// What an accepted run needs exactly is enough; one less of it is not.
#[test]
fn exact_bounds_are_enough_and_no_less_is() {
    let mut seen = 0;
    for number in 0..2000 {
        let (one, measured) = with_measure(seed_of(4, number));
        let Outcome::Accepted { report, steps } = &measured.outcome else { continue };
        let least = measured.least_words.expect("W");
        let words = least + measured.most_queued.max(1);
        let exact = check(&one.bytes, words, report.len(), *steps);
        assert_eq!(exact, measured.outcome, "{number}");
        let number = |words, len, limit| check(&one.bytes, words, len, limit).number();
        assert_eq!(number(words, report.len() - 1, *steps), 6);
        assert_eq!(number(least, report.len(), *steps), 5);
        if *steps > 0 {
            assert_eq!(number(words, report.len(), steps - 1), 7);
        }
        if measured.most_queued > 1 {
            assert_eq!(number(words - 1, report.len(), *steps), 8);
        }
        seen += 1;
    }
    assert!(seen > 500, "{seen}");
}
