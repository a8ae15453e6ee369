//! include/facts.h and the crate say the same.

#![cfg(feature = "alloc")]

use genduvo::description::{BlockType, BodyKind, ConstValue, Op, ScalarKind, Shape, ShapeTag, TypeTag};
use genduvo::{By, Mask, Reason, description, report};
use std::collections::BTreeMap;

const HEADER: &str = include_str!("../../../include/facts.h");

/// The header without its comments.
fn code() -> String {
    let mut parts = HEADER.split("/*");
    let first = parts.next().unwrap_or_default().to_string();
    parts.fold(first, |code, part| code + part.split_once("*/").map_or("", |(_, after)| after))
}

/// The numbers that have a name, by it: `FACTS_NAME = 1` of an enum and `#define FACTS_NAME 1`.
fn numbers() -> BTreeMap<String, u32> {
    let code = code();
    let defined = code.lines().filter_map(|line| line.strip_prefix("#define ")?.split_once(' '));
    let inside = code.split("enum").skip(1).filter_map(|part| part.split_once('}')).map(|(inside, _)| inside);
    let listed = inside.flat_map(|inside| inside.split(['{', ',']).filter_map(|one| one.split_once('=')));
    let all = defined.chain(listed).map(|(name, number)| (name.trim().to_string(), number.trim().parse()));
    all.filter_map(|(name, number)| Some((name, number.ok()?))).collect()
}

/// `GetLocal` as `GET_LOCAL`.
fn constant_name(name: &str) -> String {
    let parted = name.chars().map(|letter| if letter.is_uppercase() { format!("_{letter}") } else { letter.into() });
    parted.collect::<String>().trim_start_matches('_').to_uppercase()
}

/// Holds names and numbers against the header's.
fn see<'a>(prefix: &str, named: impl IntoIterator<Item = (&'a str, u32)>) {
    let numbers = numbers();
    for (name, number) in named {
        let name = format!("{prefix}{}", constant_name(name));
        assert_eq!(numbers.get(&name), Some(&number), "{name}");
    }
}

#[test]
fn the_instructions() {
    see("FACTS_OP_", Op::NAMES.into_iter().zip(0..));
    assert_eq!(Op::ALL.map(|op| op.0).to_vec(), (0..66).collect::<Vec<u8>>());
    let prefixed = numbers().into_keys().filter(|name| name.starts_with("FACTS_OP_")).count();
    assert_eq!(prefixed, Op::COUNT);
}

#[test]
fn the_other_numbers_of_a_description() {
    see("FACTS_BLOCK_", BlockType::NAMES.into_iter().zip(0..));
    see("FACTS_TYPE_", TypeTag::NAMES.into_iter().zip(0..));
    see("FACTS_CONST_", ConstValue::NAMES.into_iter().zip(0..));
    see("FACTS_SHAPE_", ShapeTag::NAMES.into_iter().zip(0..));
    see("FACTS_SCALAR_", ScalarKind::NAMES.into_iter().zip(0..));
    see("FACTS_BODY_", BodyKind::NAMES.into_iter().zip(0..));
    let widths = [("Unknown", Shape::UNKNOWN), ("Scalar", Shape::SCALAR), ("Body", Shape::BODY)];
    see("FACTS_WIDTH_", widths.map(|(name, width)| (name, width.into())));
    see("FACTS_SHARED_", [("Body", description::SHARED_BODY.into())]);
    see("FACTS_MOST_", [("Bytes", genduvo::LONGEST as u32)]);
}

#[test]
fn the_tags() {
    use description::tag as of_description;
    use report::tag as of_report;
    let tags = [
        ("Header", of_description::HEADER),
        ("Chunk", of_description::CHUNK),
        ("Instruction", of_description::INSTRUCTION),
        ("Site", of_description::SITE),
        ("Native", of_description::NATIVE),
        ("Shared", of_description::SHARED),
        ("Placement", of_description::PLACEMENT),
        ("Initializer", of_description::INITIALIZER),
        ("Reply", of_report::REPLY),
        ("Signature", of_report::SIGNATURE),
        ("Slot", of_report::SLOT),
        ("Record", of_report::RECORD),
        ("Inspection", of_report::INSPECTION),
        ("Branch", of_report::BRANCH),
    ];
    see("FACTS_TAG_", tags.map(|(name, tag)| (name, tag.into())));
    assert_eq!(numbers().into_keys().filter(|name| name.starts_with("FACTS_TAG_")).count(), tags.len());
}

#[test]
fn the_masks() {
    let wholes = [Mask::BOOL, Mask::BODY, Mask::UNKNOWN];
    let numbers = numbers();
    for mask in (0..13).map(|bit| Mask(1 << bit)).chain(wholes) {
        assert_eq!(numbers.get(&format!("FACTS_{mask}")), Some(&mask.bits().into()), "{mask}");
    }
}

#[test]
fn the_bytes_of_cells_and_entries() {
    see("FACTS_", [("Cell", report::CELL as u32), ("Entry", genduvo::ENTRY as u32)]);
}

/// The text of each case of `facts_meaning`, by its name.
fn meanings() -> BTreeMap<String, String> {
    let code = code();
    let function = code.split("facts_meaning(").nth(1).expect("facts_meaning");
    let cases = function.split("case ").skip(1).filter_map(|case| case.split_once(':'));
    let text =
        |rest: &str| rest.split(';').next().unwrap_or_default().split('"').skip(1).step_by(2).collect::<String>();
    cases.map(|(name, rest)| (name.trim().to_string(), text(rest))).collect()
}

#[test]
fn the_refusals() {
    see("FACTS_", [("Accepted", 0)]);
    let (numbers, meanings) = (numbers(), meanings());
    for reason in Reason::ALL {
        let name = format!("FACTS_{}", constant_name(&format!("{reason:?}")));
        assert_eq!(numbers.get(&name), Some(&reason.number().into()), "{name}");
        assert_eq!(meanings.get(&name).map(String::as_str), Some(reason.meaning()), "{name}");
    }
    assert_eq!(meanings.len(), Reason::ALL.len() + 1, "and what is accepted");
}

/// By whose doing each number of the header's list comes, in the list's order.
fn listed() -> Vec<By> {
    let list = HEADER.split("A refusal's number").nth(1).and_then(|rest| rest.split("*/").next()).expect("the list");
    let (mut by, mut listed) = (By::Exporter, Vec::new());
    for line in list.lines().map(|line| line.trim_start_matches([' ', '*'])) {
        match line.split_once("  ") {
            Some((number, _)) if number.parse() == Ok(listed.len() + 1) => listed.push(by),
            _ if line.starts_with("The exporter,") => by = By::Exporter,
            _ if line.starts_with("The host,") => by = By::Host,
            _ if line.starts_with("The script's author") => by = By::Author,
            _ => {}
        }
    }
    listed
}

#[test]
fn by_whose_doing_a_refusal_comes() {
    assert_eq!(Reason::ALL.map(Reason::by).to_vec(), listed());
}

#[test]
fn the_version() {
    let line = format!("#define FACTS_VERSION \"{}\"", genduvo::VERSION);
    assert!(HEADER.lines().any(|other| other == line), "{line}");
    let numbers = numbers();
    let parts = ["MAJOR", "MINOR", "PATCH"].map(|part| numbers.get(&format!("FACTS_VERSION_{part}")));
    let said: Vec<String> = parts.into_iter().flatten().map(u32::to_string).collect();
    assert_eq!(said.join("."), genduvo::VERSION);
}
