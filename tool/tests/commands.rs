//! The program's commands: statuses, standard input, both forms, what is wrong on a command line or with a file.

mod common;

use common::{fed, files, program, run, texts, top};
use std::collections::BTreeSet;
use std::io::Read;
use std::path::PathBuf;
use std::process::Stdio;

const WORKED: &str = "examples/worked.bin";
const REFUSED: &str = "examples/worked-kind-3.bin";

/// A file of this test's own.
fn own_file(name: &str) -> PathBuf {
    PathBuf::from(env!("CARGO_TARGET_TMPDIR")).join(name)
}

#[test]
fn status_says_accepted_refused_or_wrong() {
    for command in ["list", "check", "explain", "dot", "json"] {
        assert_eq!(run(&[command, WORKED]).status, 0, "{command}");
        assert_eq!(run(&[command, REFUSED]).status, 1, "{command}");
        assert_eq!(run(&[command, "examples/no-such-file"]).status, 2, "{command}");
    }
    for command in ["bytes", "text"] {
        assert_eq!(run(&[command, WORKED]).status, 0, "{command}");
        assert_eq!(run(&[command, "examples/no-such-file"]).status, 2, "{command}");
    }
}

#[test]
fn check_is_one_line() {
    let accepted = run(&["check", WORKED]);
    assert_eq!(accepted.out, "accepted: 6 steps, a report of 306 bytes, 1,433 words lent\n");
    let refused = run(&["check", REFUSED]);
    assert_eq!(refused.out, "refused 13 (script author): kinds not proven, at chunk 0, instruction 2, after 6 steps\n");
    assert_eq!(accepted.errors + &refused.errors, "");
}

#[test]
fn a_refusal_of_list_and_dot_is_a_message() {
    for command in ["list", "dot"] {
        let ran = run(&[command, REFUSED]);
        assert_eq!(ran.out, "", "{command}");
        assert!(ran.errors.contains("refused 13") && ran.errors.contains(REFUSED), "{}", ran.errors);
    }
}

#[test]
fn standard_input_and_both_forms_give_the_same() {
    let from_bytes = run(&["list", WORKED]);
    let bytes = std::fs::read(top().join(WORKED)).expect("bytes");
    let text = std::fs::read(top().join("oracle/examples/worked.txt")).expect("a text");
    assert_eq!(from_bytes.out, run(&["list", "oracle/examples/worked.txt"]).out);
    assert_eq!(from_bytes.out, fed(&["list", "-"], &bytes).out);
    assert_eq!(from_bytes.out, fed(&["list", "-"], &text).out);
}

#[test]
fn text_and_bytes_go_back_and_forth() {
    for file in texts() {
        let (bytes, text) = (own_file("there.bin"), own_file("there.txt"));
        let (bytes_name, text_name) = (bytes.to_str().expect("a name"), text.to_str().expect("a name"));
        assert_eq!(run(&["bytes", &file, "-o", bytes_name]).status, 0, "{file}");
        assert_eq!(run(&["text", bytes_name, "-o", text_name]).status, 0, "{file}");
        let (there, back) = (program(&["bytes", &file]).output(), program(&["bytes", text_name]).output());
        let (there, back) = (there.expect("a run").stdout, back.expect("a run").stdout);
        assert_eq!(there, std::fs::read(&bytes).expect("a file"), "{file}");
        assert_eq!(there, back, "{file}");
    }
}

#[test]
fn a_wrong_command_line_is_told() {
    for (args, part) in [
        (&[][..], "a command is wanted"),
        (&["lits", WORKED], "no command is named lits"),
        (&["list"], "wants a FILE"),
        (&["list", WORKED, "--colour"], "no option is named --colour"),
        (&["list", WORKED, "--chunk", "9"], "there is no chunk 9"),
        (&["check", WORKED, "--memory", "much"], "a number of bytes"),
        (&["bytes", WORKED, "-o", "no/such/folder/file"], "no/such/folder/file"),
    ] {
        let ran = run(args);
        assert_eq!((ran.status, ran.out.as_str()), (2, ""), "{args:?}");
        assert!(ran.errors.starts_with("genduvo: ") && ran.errors.contains(part), "{args:?}: {}", ran.errors);
    }
}

#[test]
fn files_that_are_none() {
    let folder = run(&["list", "examples"]);
    assert_eq!((folder.status, folder.out.as_str()), (2, ""));
    assert!(folder.errors.contains("examples: "), "{}", folder.errors);
    let wrong_text = fed(&["list", "-"], b"header float=6\nchunk L=0\n  PushImediate 2\n");
    assert_eq!(wrong_text.status, 2);
    assert!(wrong_text.errors.contains("standard input: line 3"), "{}", wrong_text.errors);
}

#[test]
fn an_empty_file_is_a_description_without_fields() {
    let ran = fed(&["explain", "-"], b"");
    assert_eq!(ran.status, 1);
    assert!(ran.out.starts_with("refused 1 ") && ran.out.contains("field 1"), "{}", ran.out);
}

#[test]
fn longer_input_isn_t_read_to_its_end() {
    let ran = fed(&["explain", "-"], &vec![1; 3 * genduvo::LONGEST]);
    assert_eq!(ran.status, 1);
    assert!(ran.out.starts_with("refused 2 ") && ran.out.contains("1048576"), "{}", ran.out);
}

#[test]
fn help_is_there_for_the_program_and_each_command() {
    let all = run(&["--help"]);
    assert_eq!((all.status, all.errors.as_str()), (0, ""));
    for command in ["list", "check", "explain", "dot", "json", "bytes", "text"] {
        assert!(all.out.contains(&format!("genduvo {command} FILE")), "{command}");
        let own = run(&[command, "--help"]);
        assert!(own.status == 0 && own.out.starts_with(&format!("genduvo {command} FILE")), "{command}");
    }
    assert_eq!(run(&["--version"]).out, format!("genduvo {}\n", genduvo::VERSION));
}

#[test]
fn the_version_is_the_packages() {
    assert_eq!(genduvo::VERSION, env!("CARGO_PKG_VERSION"));
}

/// A description whose listing is far longer than what a pipe holds.
fn long_text() -> String {
    let pairs = "  PushImmediate 4\n  PopN : 1 0\n".repeat(2_000);
    format!("header float=6\nchunk L=9 D=1 returns=Top:0:?\n{pairs}  PushImmediate 0\n  Return\n")
}

#[test]
fn a_closed_pipe_ends_it_quietly() {
    let file = own_file("long.txt");
    std::fs::write(&file, long_text()).expect("a file");
    for command in ["list", "json", "dot", "text"] {
        let mut child = program(&[command, file.to_str().expect("a name")])
            .stdout(Stdio::piped())
            .stderr(Stdio::piped())
            .spawn()
            .expect("the program runs");
        let mut some = [0; 10];
        child.stdout.take().expect("an output").read_exact(&mut some).expect("some bytes");
        let ended = child.wait_with_output().expect("an end");
        assert_eq!((ended.status.code(), ended.stderr.as_slice()), (Some(0), &b""[..]), "{command}");
    }
}

#[cfg(target_os = "linux")]
#[test]
fn a_full_disk_is_told() {
    for command in ["list", "check", "explain", "json", "dot", "text", "bytes"] {
        let full = std::fs::OpenOptions::new().write(true).open("/dev/full").expect("a full device");
        let ended = program(&[command, WORKED]).stdout(full).output().expect("the program runs");
        let errors = String::from_utf8(ended.stderr).expect("text");
        assert_eq!(ended.status.code(), Some(2), "{command}");
        assert!(errors.contains("can't be written"), "{command}: {errors}");
    }
}

#[test]
fn one_chunk_alone() {
    let one = run(&["list", "oracle/examples/call.txt", "--chunk", "1"]);
    assert!(one.out.contains("chunk 1: ") && !one.out.contains("chunk 0: "), "{}", one.out);
    let drawn = run(&["dot", "oracle/examples/call.txt", "--chunk", "1"]);
    assert!(drawn.out.contains("cluster_1") && !drawn.out.contains("cluster_0"), "{}", drawn.out);
}

/// Command lines that are refused for what they lend or allow.
const SHORT: [(&str, &[&str]); 4] = [
    ("5", &["oracle/examples/refused-8.txt", "--memory", "2K"]),
    ("6", &["oracle/examples/refused-8.txt", "--memory", "6700"]),
    ("7", &["oracle/examples/refused-7.txt", "--limit", "3"]),
    ("8", &["oracle/examples/refused-8.txt", "--memory", "2628"]),
];

#[test]
fn what_the_host_can_mend_is_said() {
    for (number, args) in SHORT {
        let wrong = if number == "7" { 1 } else { 2 };
        let option = if number == "7" { "--limit" } else { "--memory" };
        for command in ["check", "list", "explain", "json", "dot"] {
            let ran = run(&[&[command], args].concat());
            assert_eq!(ran.status, wrong, "{command} {args:?}");
            assert!((ran.out + &ran.errors).contains(option), "{command} {args:?}");
        }
    }
}

#[test]
fn every_refusal_is_explained() {
    let mut lines: Vec<Vec<String>> = texts().into_iter().map(|file| vec![file]).collect();
    lines.extend(SHORT.iter().map(|(_, args)| args.iter().map(|arg| arg.to_string()).collect()));
    let mut seen = BTreeSet::new();
    for line in &lines {
        let args: Vec<&str> = ["explain"].into_iter().chain(line.iter().map(String::as_str)).collect();
        let ran = run(&args);
        let number = ran.out.strip_prefix("refused ").and_then(|rest| rest.split(' ').next());
        let Some(number) = number else { continue };
        assert!(ran.status > 0, "{line:?}");
        let said = ran.out.lines().filter(|text| text.starts_with("  ")).count();
        assert!(said > 0 && !ran.out.contains("doesn't find the cause"), "{line:?}: {}", ran.out);
        seen.insert(number.parse::<u8>().expect("a number"));
    }
    assert_eq!(seen, (1..=18).collect());
}

#[test]
fn graphs_are_balanced_and_name_only_their_own_nodes() {
    for file in texts() {
        let ran = run(&["dot", &file]);
        if ran.status != 0 {
            continue;
        }
        let count = |sign: char| ran.out.matches(sign).count();
        assert_eq!(count('{'), count('}'), "{file}");
        assert_eq!(count('"') % 2, 0, "{file}");
        let nodes: BTreeSet<&str> = ran
            .out
            .lines()
            .filter(|line| line.contains("[label=\" "))
            .filter_map(|line| line.split_whitespace().next())
            .collect();
        assert!(!nodes.is_empty(), "{file}");
        for line in ran.out.lines().filter(|line| line.contains("_") && line.contains(" -> c")) {
            let ends = line.split(" -> ").map(|end| end.split([' ', ';']).find(|word| !word.is_empty()).unwrap_or(""));
            ends.for_each(|end| assert!(nodes.contains(end), "{file}: {line}"));
        }
    }
}

#[test]
fn examples_as_bytes_are_those_of_the_texts() {
    for file in files("examples", ".bin").iter().filter(|file| !file.ends_with("worked-cut.bin")) {
        let text = file.replace("examples/", "oracle/examples/").replace(".bin", ".txt");
        let ran = program(&["bytes", &text]).output().expect("a run");
        assert_eq!(ran.stdout, std::fs::read(top().join(file)).expect("a file"), "{file}");
    }
}
