//! types.rs is the published text, and the woven texts are it and nothing lost.

use std::process::Command;

fn file(path: &str) -> String {
    let folder = std::env::var("ORACLE_DIR").expect("ORACLE_DIR");
    std::fs::read_to_string(format!("{folder}/{path}")).expect(path)
}

#[test]
fn the_copy_has_the_stored_hash() {
    let folder = std::env::var("ORACLE_DIR").expect("ORACLE_DIR");
    let out = Command::new("sha256sum")
        .args(["--check", "--strict", "SHA256SUMS"])
        .current_dir(format!("{folder}/vendor"))
        .output()
        .expect("sha256sum runs");
    assert!(out.status.success(), "{}", String::from_utf8_lossy(&out.stderr));
    assert_eq!(String::from_utf8_lossy(&out.stdout), "types.rs: OK\n");
}

/// The text less the tail and the lines with the probe mark.
fn plain(woven: &str, tail: &str) -> (String, usize) {
    let body = woven.strip_suffix(tail).expect("the tail stands at the end");
    let kept: Vec<&str> = body.split_inclusive('\n').filter(|l| !l.ends_with("// probe\n")).collect();
    let removed = body.lines().count() - kept.len();
    (kept.concat(), removed)
}

#[test]
fn without_probes_and_tail_the_woven_texts_are_types_rs() {
    let types = file("vendor/types.rs");
    let tail = file("standins/tail.rs");
    assert_eq!(plain(&file("target/woven/verbatim.rs"), &tail), (types.clone(), 0));
    assert_eq!(plain(&file("target/woven/probed.rs"), &tail), (types, 6));
}

const HANDLE_4: (&str, &str) = ("            (OPAQUE, 8),", "            (OPAQUE, 4),");
/// The single way, and nothing narrowed on it.
const NEXT_BRANCH: [(&str, &str); 2] = [
    (
        "                Op::If(t) | Op::BreakIf(t) => {",
        "                Op::If(t) | Op::BreakIf(t) if *t as usize != ip + 1 => {",
    ),
    (
        "                if let Op::If(target) | Op::BreakIf(target) = op {",
        "                if let Op::If(target) | Op::BreakIf(target) = op && *target as usize != ip + 1 {",
    ),
];

/// The copy is types.rs with these lines changed and no other, as it is and with the probes.
fn differs_in(name: &str, changes: &[(&str, &str)]) {
    let types = file("vendor/types.rs");
    let copy = file(&format!("target/woven/{name}.rs"));
    let differ: Vec<(&str, &str)> = types.lines().zip(copy.lines()).filter(|(a, b)| a != b).collect();
    assert_eq!(differ, changes, "{name}");
    assert_eq!(types.lines().count(), copy.lines().count(), "{name}");
    let longer: usize = changes.iter().map(|(old, new)| new.len() - old.len()).sum();
    assert_eq!(types.len() + longer, copy.len(), "{name}");
    let tail = file("standins/tail.rs");
    assert_eq!(plain(&file(&format!("target/woven/{name}-verbatim.rs")), &tail), (copy.clone(), 0), "{name}");
    assert_eq!(plain(&file(&format!("target/woven/{name}-probed.rs")), &tail), (copy, 6), "{name}");
}

#[test]
fn the_copies_differ_in_the_lines_of_their_changes() {
    differs_in("handle-4", &[HANDLE_4]);
    differs_in("next-branch", &NEXT_BRANCH);
    differs_in("handle-4-next-branch", &[&[HANDLE_4][..], &NEXT_BRANCH].concat());
}

#[test]
fn an_anchor_that_is_missing_or_doubled_stops_the_weaving() {
    let folder = std::env::var("ORACLE_DIR").expect("ORACLE_DIR");
    let weave = |probes: &str| {
        let path = format!("{folder}/target/woven/bad-probes.txt");
        std::fs::write(&path, probes).expect("written");
        let out = Command::new(format!("{folder}/target/weave"))
            .args(["vendor/types.rs", "standins/tail.rs", "target/woven/bad.rs", &path])
            .current_dir(&folder)
            .output()
            .expect("weave runs");
        String::from_utf8_lossy(&out.stderr).into_owned()
    };
    assert!(weave("after\nno such line\nx // probe\n").contains("found 0 times"));
    let doubled = "            continue;";
    let times = file("vendor/types.rs").lines().filter(|line| *line == doubled).count();
    assert!(times > 1);
    let answer = weave(&format!("after\n{doubled}\nx // probe\n"));
    assert!(answer.contains(&format!("found {times} times")), "{answer}");
    let changes = format!("{folder}/target/woven/bad-changes.txt");
    std::fs::write(&changes, format!("{doubled}\nx\n")).expect("written");
    let out = Command::new(format!("{folder}/target/weave"))
        .args(["--copy", "vendor/types.rs", &changes, "target/woven/bad.rs"])
        .current_dir(&folder)
        .output()
        .expect("weave runs");
    assert!(String::from_utf8_lossy(&out.stderr).contains(&format!("found {times} times")));
}

#[test]
fn every_instruction_has_the_place_that_the_names_give_it() {
    let text = file("standins/keleusma.rs");
    let body = text.split("pub enum Op {").nth(1).expect("Op").split("    }\n").next().expect("end");
    let names: Vec<&str> = body
        .lines()
        .map(|line| line.trim().trim_end_matches(',').split('(').next().unwrap())
        .filter(|name| !name.is_empty())
        .collect();
    assert_eq!(names, oracle::description::Op::NAMES);
}
