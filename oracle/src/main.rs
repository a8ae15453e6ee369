//! The command line program `oracle`.

use oracle::description::{bytes_to_text, text_to_bytes};
use oracle::judged::{Text, judged};
use oracle::listing::listing;
use oracle::run::{self, Outcome};
use std::io::Write;
use std::process::exit;

#[global_allocator]
static POOL: oracle::pool::Pool = oracle::pool::Pool;

const USAGE: &str = "oracle bytes FILE.txt > FILE.bin
oracle text FILE.bin
oracle check FILE.(txt|bin) [words] [report_len] [limit]
oracle case NAME FILE [words] [limit]   the call as a case of the definition, in antt
oracle generate [--handle-4] [--next-branch] SEED   the description of a seed, as text
oracle coverage COUNT [SEED]    generated descriptions: what they reach
oracle operands                 the class of every mask, as types.rs answers it";

fn stop(message: &str) -> ! {
    eprintln!("{message}");
    exit(2);
}

fn read(path: &str) -> Vec<u8> {
    let bytes = std::fs::read(path).unwrap_or_else(|error| stop(&format!("{path}: {error}")));
    if !path.ends_with(".txt") {
        return bytes;
    }
    let text = String::from_utf8(bytes).unwrap_or_else(|_| stop(&format!("{path}: not a text")));
    text_to_bytes(&text).unwrap_or_else(|error| stop(&format!("{path}: {error}")))
}

fn number<T: std::str::FromStr>(text: Option<&String>, otherwise: T) -> T {
    match text {
        None => otherwise,
        Some(text) => text.parse().unwrap_or_else(|_| stop(&format!("not a number: {text}"))),
    }
}

fn main() {
    let args: Vec<String> = std::env::args().skip(1).collect();
    match args.iter().map(String::as_str).collect::<Vec<_>>()[..] {
        ["bytes", path] => std::io::stdout().write_all(&read(path)).expect("output"),
        ["text", path] => print!("{}", bytes_to_text(&read(path))),
        ["check", path, ..] if args.len() <= 5 => {
            let words = number(args.get(2), 16384);
            let report_len = number(args.get(3), 16384);
            let limit = number(args.get(4), 1_000_000);
            print!("{}", listing(&run::check(&read(path), words, report_len, limit)));
        }
        ["case", name, path, ..] if args.len() <= 5 => {
            let (words, limit) = (number(args.get(3), 16384), number(args.get(4), 1_000_000));
            print!("{}", case(name, &read(path), words, limit));
        }
        ["generate", ..] => generate(&args[1..]),
        ["coverage", _, ..] if args.len() <= 3 => {
            let (count, seed) = (number(args.get(1), 0), number(args.get(2), 1));
            print!("{}", oracle::generate::coverage::over(count, seed, judged).table());
        }
        ["operands"] => print!("{}", oracle::operands::listed()),
        _ => stop(USAGE),
    }
}

/// Prints the description of a seed, behind the flags of `compare`.
fn generate(args: &[String]) {
    let (text, [seed]) = Text::asked(args) else { stop(USAGE) };
    let (one, _) = oracle::generate::made_for(number(Some(seed), 0), text);
    println!("# words {} report {} limit {}", one.words, one.report_len, one.limit);
    print!("{}", bytes_to_text(&one.bytes));
}

/// Numbers as a list of antt.
fn list(numbers: impl IntoIterator<Item = u64>) -> String {
    numbers.into_iter().map(|n| format!("{n} ∷ ")).collect::<String>() + "[]"
}

/// What a call decides, given room enough for its report, as the crate `cases` states it.
fn case(name: &str, bytes: &[u8], words: u64, limit: u32) -> String {
    let gives = match run::check(bytes, words, usize::MAX, limit) {
        Outcome::Refused(r) => list([1, r.number.into(), r.chunk.into(), r.instruction.into(), r.steps.into()]),
        Outcome::Accepted { report, steps } => list([0, steps.into()].into_iter().chain(report.into_iter().map(u64::from))),
    };
    let description = list(bytes.iter().map(|b| u64::from(*b)));
    format!(
        "unfoldable {name} : Case\n{name} =\n    record {{\n      description = {description};\n      words = {words};\n      limit = {limit};\n      gives = {gives};\n    }}\n"
    )
}
