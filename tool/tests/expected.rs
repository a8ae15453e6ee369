//! What `list` and `explain` print, against stored files. `UPDATE=1 cargo test` writes them anew.

mod common;

use common::{Ran, run, texts};
use std::path::{Path, PathBuf};

fn stored(name: &str) -> PathBuf {
    Path::new(env!("CARGO_MANIFEST_DIR")).join("tests/expected").join(name)
}

/// Holds a run's output against its file.
fn hold(name: &str, ran: &Ran) {
    let found = format!("{}{}status {}\n", ran.out, ran.errors, ran.status);
    let path = stored(name);
    if std::env::var_os("UPDATE").is_some_and(|value| value == "1") {
        std::fs::write(&path, &found).expect("a file");
    }
    let expected = std::fs::read_to_string(&path).unwrap_or_default();
    assert!(found == expected, "{name} differs (UPDATE=1 writes it anew); found:\n{found}");
}

/// A file's name without its folder and ending.
fn stem(file: &str) -> String {
    Path::new(file).file_stem().expect("a name").to_string_lossy().into_owned()
}

#[test]
fn listings_and_explanations() {
    for file in texts() {
        let listed = run(&["list", &file]);
        if listed.status == 0 {
            hold(&format!("{}.list", stem(&file)), &listed);
        } else {
            hold(&format!("{}.explain", stem(&file)), &run(&["explain", &file]));
        }
    }
}

#[test]
fn a_graph_and_json() {
    hold("mixed.dot", &run(&["dot", "tool/tests/inputs/mixed.txt"]));
    hold("worked.json", &run(&["json", "examples/worked.bin"]));
    hold("refused-10.json", &run(&["json", "tool/tests/inputs/refused-10.txt"]));
}

/// A file that no test reads any more would stay unnoticed.
#[test]
fn no_stored_file_is_left_over() {
    let stems: Vec<String> = texts().iter().map(|file| stem(file)).collect();
    for entry in std::fs::read_dir(stored("")).expect("a folder") {
        let name = entry.expect("an entry").file_name().to_string_lossy().into_owned();
        let known = stems.contains(&stem(&name)) || name == "worked.json";
        assert!(known, "{name} belongs to no input");
    }
}
