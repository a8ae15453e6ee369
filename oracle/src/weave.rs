//! Makes the texts that are compiled out of types.rs: `weave types.rs tail.rs
//! out.rs` appends the tail, `weave types.rs tail.rs out.rs probes.txt` also puts
//! the probes in. `weave --copy types.rs changes.txt out.rs` makes a copy with
//! the lines of changes.txt in the stead of others.

use std::process::exit;

struct Probe {
    before: bool,
    anchor: String,
    line: String,
}

/// The lines of a text that are not empty and no comment.
fn lines(text: &str) -> Vec<&str> {
    text.lines().filter(|line| !line.is_empty() && !line.starts_with('#')).collect()
}

fn probes(text: &str) -> Vec<Probe> {
    let lines = lines(text);
    assert!(lines.len() % 3 == 0, "probes come in threes");
    lines
        .chunks(3)
        .map(|three| {
            assert!(matches!(three[0], "before" | "after"), "{}", three[0]);
            assert!(three[2].ends_with("// probe"), "{}", three[2]);
            Probe { before: three[0] == "before", anchor: three[1].into(), line: three[2].into() }
        })
        .collect()
}

fn read(path: &str) -> String {
    std::fs::read_to_string(path).expect(path)
}

/// Stops unless the line stands exactly once.
fn once(types: &str, line: &str) {
    let times = types.lines().filter(|other| *other == line).count();
    if times != 1 {
        eprintln!("weave: anchor found {times} times: {line}");
        exit(1);
    }
}

fn copy(types: &str, changes: &str) -> String {
    let lines = lines(changes);
    assert!(lines.len() % 2 == 0, "changes come in twos");
    let mut out = String::new();
    lines.chunks(2).for_each(|two| once(types, two[0]));
    for line in types.lines() {
        let changed = lines.chunks(2).find(|two| two[0] == line);
        out.push_str(changed.map_or(line, |two| two[1]));
        out.push('\n');
    }
    out
}

fn woven(types: &str, all: &[Probe]) -> String {
    all.iter().for_each(|probe| once(types, &probe.anchor));
    let mut out = String::new();
    for line in types.lines() {
        for probe in all.iter().filter(|p| p.before && p.anchor == line) {
            out.push_str(&probe.line);
            out.push('\n');
        }
        out.push_str(line);
        out.push('\n');
        for probe in all.iter().filter(|p| !p.before && p.anchor == line) {
            out.push_str(&probe.line);
            out.push('\n');
        }
    }
    out
}

fn main() {
    let args: Vec<String> = std::env::args().skip(1).collect();
    let (path, out) = match args.iter().map(String::as_str).collect::<Vec<_>>()[..] {
        ["--copy", types, changes, out] => (out, copy(&read(types), &read(changes))),
        [types, tail, out] => (out, woven(&read(types), &[]) + &read(tail)),
        [types, tail, out, all] => (out, woven(&read(types), &probes(&read(all))) + &read(tail)),
        _ => {
            eprintln!("weave types.rs tail.rs out.rs [probes.txt]\nweave --copy types.rs changes.txt out.rs");
            exit(2);
        }
    };
    std::fs::write(path, out).expect("the woven text is written");
}
