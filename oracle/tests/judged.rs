//! Which descriptions are held against types.rs, and how the rest is counted.

use oracle::description::Op;
use oracle::generate::coverage::{Coverage, over};
use oracle::generate::{generate, seed_of};
use oracle::judged::{Text, judged, next_branches, text_of};
use oracle::model::{Description, Instruction};

#[test]
fn every_example_but_those_of_a_copy_is_judged() {
    let folder = std::env::var("ORACLE_DIR").expect("ORACLE_DIR");
    let (mut seen, mut left_out) = (0, Vec::new());
    for file in std::fs::read_dir(format!("{folder}/examples")).expect("examples") {
        let path = file.expect("a file").path();
        let d = Description::from_text(&std::fs::read_to_string(&path).expect("text")).expect("parses");
        let name = path.file_stem().expect("a name").to_string_lossy().into_owned();
        let next_branch = name.starts_with("next-");
        assert_eq!(text_of(&d), Text { handle_4: d.header.handle == 4, next_branch }, "{name}");
        if !judged(&d) {
            left_out.push(name);
        }
        seen += 1;
    }
    assert!(seen >= 25, "{seen}");
    left_out.sort();
    let next = ["next-break-if", "next-cut", "next-if", "next-known", "next-last", "next-narrowed"];
    assert_eq!(left_out, [&["handle-4", "handle-or-word"][..], &next].concat());
}

fn example(name: &str) -> Description {
    let folder = std::env::var("ORACLE_DIR").expect("ORACLE_DIR");
    let path = format!("{folder}/examples/{name}.txt");
    Description::from_text(&std::fs::read_to_string(&path).expect(&path)).expect("parses")
}

/// Handles of other sizes are refused before types.rs is asked.
#[test]
fn handles_of_four_alone_are_left_out() {
    let mut d = example("worked");
    for handle in 0..=255 {
        d.header.handle = handle;
        assert_eq!(judged(&d), handle != 4, "{handle}");
        assert_eq!(text_of(&d).handle_4, handle == 4, "{handle}");
    }
}

/// The targets of such an instruction at this place of a chunk with which types.rs does
/// not judge the description.
fn left_out_targets(op: u8, (chunk, reachable, at): (usize, u8, usize)) -> Vec<u32> {
    let left_out = |a: &u32| {
        let mut d = example("call");
        d.chunks[chunk].reachable = reachable;
        d.chunks[chunk].code[at] = Instruction::new(op, 1, 0, *a, 0, 0);
        assert_eq!(judged(&d), text_of(&d) == Text::TYPES);
        assert_eq!(next_branches(&d).collect::<Vec<_>>(), if judged(&d) { vec![] } else { vec![(chunk, at)] });
        text_of(&d) == Text { next_branch: true, ..Text::TYPES }
    };
    [0, 1, 2, 3, 4, 5, 65535].into_iter().filter(left_out).collect()
}

/// Of all instructions `If` and `BreakIf` alone, of all targets the next one alone: at the
/// first place, at the last and between, in a chunk that is reached and in one that isn't.
#[test]
fn tests_to_the_very_next_instruction_alone_are_left_out() {
    let places = [(0, 1, 0), (0, 1, 1), (0, 1, 2), (1, 1, 0), (1, 1, 3), (1, 0, 0), (1, 0, 2), (1, 0, 3)];
    for (op, name) in Op::NAMES.iter().enumerate() {
        for place in places {
            let next = if ["If", "BreakIf"].contains(name) { vec![place.2 as u32 + 1] } else { vec![] };
            assert_eq!(left_out_targets(op as u8, place), next, "{name} {place:?}");
        }
    }
}

/// The flags of the comparison, in any order, and what comes behind them.
#[test]
fn a_text_is_asked_for_by_flags() {
    let asked = |args: &str| {
        let args: Vec<String> = args.split(' ').map(String::from).collect();
        let (text, rest) = Text::asked(&args);
        (text.handle_4, text.next_branch, rest.join(" "))
    };
    assert_eq!(asked("5 6"), (false, false, "5 6".into()));
    assert_eq!(asked("--handle-4 5"), (true, false, "5".into()));
    assert_eq!(asked("--next-branch 5"), (false, true, "5".into()));
    assert_eq!(asked("--handle-4 --next-branch 5"), (true, true, "5".into()));
    assert_eq!(asked("--next-branch --handle-4"), (true, true, String::new()));
    assert_eq!(asked("5 --handle-4"), (false, false, "5 --handle-4".into()));
}

/// A condition that leaves out a good part of what is generated.
fn one_chunk(d: &Description) -> bool {
    d.chunks.len() == 1
}

#[test]
fn what_is_not_judged_is_counted_and_nothing_else_of_it() {
    const COUNT: u64 = 3000;
    let described = |number| Description::decode(&generate(seed_of(5, number)).bytes);
    let left_out = (0..COUNT).filter(|number| described(*number).is_some_and(|d| !one_chunk(&d))).count() as u64;
    assert!(left_out > 500 && left_out < 2500, "{left_out}");

    let all = over(COUNT, 5, |_| true);
    let some = over(COUNT, 5, one_chunk);
    assert_eq!((all.descriptions, all.left_out), (COUNT, 0));
    assert_eq!((some.descriptions, some.left_out), (COUNT - left_out, left_out));
    assert_eq!(some.outcomes.iter().sum::<u64>(), COUNT - left_out);
    assert!(some.table().contains(&format!("| left out by intention | {left_out} |\n")));
    assert!(some.present.iter().zip(&all.present).all(|(some, all)| some <= all));

    // Threads count apart, and their counts are joined.
    let mut both = all;
    both.join(&some);
    assert_eq!(both.left_out, left_out);
}

#[test]
fn bytes_that_are_no_description_are_never_left_out() {
    let mut coverage = Coverage::default();
    assert!(coverage.includes(&[3, 1, 0, 7], |_| false));
    assert_eq!(coverage.left_out, 0);
    let d = Description::decode(&generate(1).bytes).expect("a description");
    assert!(!coverage.includes(&d.encode(), |_| false));
    assert_eq!(coverage.left_out, 1);
}
