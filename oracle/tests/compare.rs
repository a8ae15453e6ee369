//! The comparison finds nothing in a port that asks the oracle, and every
//! fault that is put into it.

use std::path::Path;
use std::process::Command;
use std::sync::OnceLock;

/// The driver, built once with the stand-in for a port.
fn driver() -> &'static str {
    static DRIVER: OnceLock<String> = OnceLock::new();
    DRIVER.get_or_init(|| {
        let folder = std::env::var("ORACLE_DIR").expect("ORACLE_DIR");
        let out = format!("{folder}/target/stub");
        std::fs::create_dir_all(&out).expect("a folder");
        let rustc = |args: &[&str]| {
            let mut command = Command::new("rustc");
            command.args(["--edition", "2024", "-O", "-L", "target", "--extern", "oracle", "--out-dir", &out]);
            let status = command.args(args).current_dir(&folder).status().expect("rustc runs");
            assert!(status.success());
        };
        rustc(&["--crate-type", "rlib", "--crate-name", "facts", "tests/port/facts.rs"]);
        let library = format!("facts={out}/libfacts.rlib");
        rustc(&["--crate-name", "driver", "--extern", &library, "src/compare.rs"]);
        let driver = format!("{out}/driver");
        assert!(Path::new(&driver).exists());
        driver
    })
}

/// Whether the run ended well, and its output.
fn compared(count: &str, wrong: &str) -> (bool, String) {
    driven(&[count, "2"], wrong)
}
fn driven(args: &[&str], wrong: &str) -> (bool, String) {
    let out = Command::new(driver()).args(args).env("WRONG", wrong).output().expect("it runs");
    (out.status.success(), String::from_utf8(out.stdout).expect("text"))
}

/// How many were compared, in a run that ended well; the rest was left out.
fn all_good(args: &[&str], of: u64) -> (u64, String) {
    let (good, output) = driven(args, "");
    let last = output.lines().last().unwrap_or("");
    let compared: u64 = last.split(' ').next().and_then(|number| number.parse().ok()).expect(last);
    assert!(good && last.ends_with(" compared, 0 differences"), "{last}");
    assert!(output.contains(&format!("| all | {compared} |\n| left out by intention | {} |\n", of - compared)));
    (compared, output)
}

#[test]
fn nothing_differs_from_itself() {
    let (compared, output) = all_good(&["3000", "2"], 3000);
    assert!(compared > 2_980, "{compared}");
    assert!(output.contains("| CallExternalNative | "));
    assert!(!output.contains("answered otherwise"));
    let accepted = output.lines().find_map(|line| line.strip_prefix("| accepted | ")).expect("a count");
    let accepted = accepted.trim_end_matches([' ', '|']);
    assert!(accepted.len() > 2 && output.contains(&format!("\n{accepted} indexes compared\n")), "{accepted}");
}

/// The lookup through an index: many pairs agree, many disagree, and nothing differs.
#[test]
fn no_lookup_differs_from_itself() {
    let (good, output) = driven(&["--index", "20000", "2"], "");
    let lines: Vec<&str> = output.lines().collect();
    let number = |line: &str| line.split(' ').next().and_then(|number| number.parse::<u64>().ok()).expect("a number");
    let [agreeing, last] = lines[..] else { panic!("{output}") };
    assert!(good && last.ends_with(" compared, 0 differences"), "{output}");
    assert!(agreeing.ends_with(" reports agree with the index given"), "{agreeing}");
    let (agreeing, compared) = (number(agreeing), number(last));
    assert!(agreeing > 20_000 && compared - agreeing > 20_000, "{output}");
}

/// What is made for a copy of types.rs: nothing differs from itself, and so many at least
/// are answered otherwise by types.rs itself. A port that is wrong there is noticed; where
/// types.rs judges, it isn't wrong.
fn held_against_its_copy(flags: &[&str], fault: &str, least: u64, least_otherwise: u64) {
    let args = [flags, &["3000", "2"]].concat();
    let (compared, output) = all_good(&args, 3000);
    let otherwise = output.lines().find_map(|line| line.strip_suffix(" answered otherwise by types.rs itself"));
    let otherwise: u64 = otherwise.and_then(|number| number.parse().ok()).expect("a count");
    assert!(compared > least && otherwise > least_otherwise, "{compared} {otherwise}");
    let (good, output) = driven(&args, fault);
    assert!(!good, "{fault}");
    assert!(output.lines().last().unwrap_or("").ends_with(" compared, 10 differences"), "{fault}");
    let (good, _) = driven(&["3000", "2"], fault);
    assert!(good, "{fault}");
}

#[test]
fn short_handles_are_held_against_their_own_text() {
    held_against_its_copy(&["--handle-4"], "handle of eight", 2_900, 50);
}

#[test]
fn branches_to_the_next_are_held_against_their_own_text() {
    for fault in ["narrowed to the next", "next not listed"] {
        held_against_its_copy(&["--next-branch"], fault, 2_550, 500);
    }
}

#[test]
fn short_handles_with_branches_to_the_next_are_held_against_their_own_text() {
    for fault in ["handle of eight", "narrowed to the next"] {
        held_against_its_copy(&["--next-branch", "--handle-4"], fault, 2_500, 500);
    }
}

#[test]
fn every_fault_is_noticed() {
    let faults = [
        "last byte", "guards turned", "past the report", "word left", "panic", "length", "steps", "workspace cleared",
        "report touched", "number", "chunk", "instruction", "refusal's steps", "empty part", "record",
        // Of the call with an index.
        "contents", "without the head", "falling", "index touched", "19 before 6", "19's report", "19 for its length",
        "19's index", "19's workspace", "19's steps", "past the index", "index's length", "steps with index",
        // Of the lookup through one.
        "left over", "any index", "20 for none",
        // Of the sizes.
        "sizes refused", "least workspace", "most bytes",
    ];
    for fault in faults {
        let (good, output) = compared("20000", fault);
        assert!(!good, "{fault}");
        let last = output.lines().last().unwrap_or("");
        assert!(last.ends_with(" compared, 10 differences"), "{fault}: {last}");
        assert_eq!(output.lines().filter(|line| line.starts_with("---- seed ")).count(), 10, "{fault}");
        assert_eq!(output.contains("panic: "), fault == "panic", "{fault}");
    }
}

#[test]
fn every_fault_of_the_agreement_is_noticed() {
    let faults = [
        "left over", "any index", "20 for none", "20's steps", "equal places", "up to the place", "entry more",
        "entry less", "without rising", "in the walk's order",
    ];
    for fault in faults {
        let (good, output) = driven(&["--index", "20000", "2"], fault);
        assert!(!good, "{fault}");
        let last = output.lines().last().unwrap_or("");
        assert!(last.ends_with(" compared, 10 differences"), "{fault}: {last}");
        assert_eq!(output.lines().filter(|line| line.starts_with("---- lookup ")).count(), 10, "{fault}");
    }
}

/// Runs cut into turns: many pauses, damaged and forged workspaces, and nothing differs.
#[test]
fn no_cut_run_differs_from_itself() {
    let (good, output) = driven(&["--pause", "100", "2"], "");
    let number = |line: &str| line.split(' ').next().and_then(|number| number.parse::<u64>().ok()).expect("a number");
    let lines: Vec<&str> = output.lines().collect();
    let [pauses, damaged, forged, last] = lines[..] else { panic!("{output}") };
    assert!(good && last.ends_with(" compared, 0 differences"), "{output}");
    assert!(number(pauses) > 5_000 && number(damaged) > 500 && number(forged) > 500, "{output}");
}

#[test]
fn every_fault_of_a_pause_is_noticed() {
    let faults = [
        "pause late", "pause early", "7 for a pause", "pause touches", "steps of one turn", "largest total",
        "index unasked", "left at the end", "begun afresh", "mark without the last", "any mark",
        "zeros marked", "21 before 5", "21 clears", "21's steps",
    ];
    for fault in faults {
        let (good, output) = driven(&["--pause", "1000", "2"], fault);
        assert!(!good, "{fault}");
        let last = output.lines().last().unwrap_or("");
        assert!(last.ends_with(" compared, 10 differences"), "{fault}: {last}");
    }
}

#[test]
fn a_difference_is_shown_small() {
    let (_, output) = compared("2000", "refusal's steps");
    let small = output.split("smaller, within ample bounds:").nth(1).expect("a smaller one");
    let small: Vec<&str> = small.lines().take_while(|line| !line.starts_with("----")).collect();
    assert!(small.len() < 25, "{}", small.join("\n"));
    assert!(small.iter().any(|line| line.trim_start().starts_with("NewComposite")));
}
