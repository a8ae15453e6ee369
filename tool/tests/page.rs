//! docs/TOOL.md stays true: every fenced block that begins with `$ genduvo` has what the program prints, and the picture
//! is that of its graph. `UPDATE=1 cargo test` writes the blocks anew.

mod common;

use common::{run, top};
use std::collections::BTreeSet;

const PAGE: &str = "docs/TOOL.md";
const PICTURE: &str = "docs/tool-loop.svg";
const DRAWN: &str = "tool/tests/inputs/mixed.txt";

/// What a command line of the page prints, standard output first.
fn printed(line: &str) -> String {
    let words: Vec<&str> = line.split_whitespace().collect();
    let ran = run(&words[1..]);
    ran.out + &ran.errors
}

/// A block as it should be: each command line with what it prints.
fn anew(block: &str) -> String {
    let commands = block.lines().filter_map(|line| line.strip_prefix("$ "));
    commands.map(|command| format!("$ {command}\n{}", printed(command))).collect()
}

/// The page with its blocks written anew, and how many command lines it has.
fn rewritten(page: &str) -> (String, usize) {
    let mut count = 0;
    let mut parts: Vec<String> = Vec::new();
    for (number, part) in page.split("```\n").enumerate() {
        let block = number % 2 == 1 && part.starts_with("$ genduvo ");
        count += if block { part.lines().filter(|line| line.starts_with("$ ")).count() } else { 0 };
        parts.push(if block { anew(part) } else { part.to_string() });
    }
    (parts.join("```\n"), count)
}

#[test]
fn every_command_of_the_page_prints_what_it_says() {
    let path = top().join(PAGE);
    let page = std::fs::read_to_string(&path).expect("the page");
    let (found, count) = rewritten(&page);
    assert!(count > 10, "{count} commands");
    if std::env::var_os("UPDATE").is_some_and(|value| value == "1") {
        std::fs::write(&path, &found).expect("the page is written");
        return;
    }
    for (line, (says, prints)) in page.lines().zip(found.lines()).enumerate() {
        assert_eq!(says, prints, "line {} of {PAGE} (UPDATE=1 writes it anew)", line + 1);
    }
    assert!(page == found, "{PAGE} has lines that no command prints (UPDATE=1 writes it anew)");
}

/// The texts between two marks.
fn between<'a>(text: &'a str, open: &str, close: &str) -> BTreeSet<&'a str> {
    text.split(open).skip(1).filter_map(|rest| rest.split(close).next()).collect()
}

#[test]
fn the_picture_has_the_nodes_and_ways_of_its_graph() {
    let svg = std::fs::read_to_string(top().join(PICTURE)).expect("the picture");
    let titles: BTreeSet<String> = between(&svg, "<title>", "</title>")
        .into_iter()
        .map(|title| title.replace("&#45;", "-").replace("&gt;", ">"))
        .filter(|title| title.starts_with("c0_") || title.starts_with("c1_"))
        .collect();
    let graph = run(&["dot", DRAWN]).out;
    let ends = |line: &str| line.trim().trim_end_matches(';').split(" [").next().unwrap_or("").replace(" -> ", "->");
    let drawn: BTreeSet<String> =
        graph.lines().map(ends).filter(|name| name.starts_with('c') && name.contains('_')).collect();
    assert_eq!(titles, drawn);
    assert!(std::fs::read_to_string(top().join(PAGE)).expect("the page").contains("](tool-loop.svg)"));
}
