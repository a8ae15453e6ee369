//! What `--help` prints.

use crate::args::Command;

const PROGRAM: &str = "\
genduvo: the value-kind facts of a coroutine script

  genduvo list FILE      all facts, with names, instruction by instruction
  genduvo check FILE     one line: accepted, or refused and where
  genduvo explain FILE   why a description is refused
  genduvo dot FILE       the control flow as Graphviz text
  genduvo json FILE      the answer and the report as JSON
  genduvo bytes FILE     the description as bytes
  genduvo text FILE      the description as text

FILE is a description, as bytes or as text (it is seen which), or - for standard input.
";

const NARROWING: &str = "  --chunk N        only chunk N (list, dot)
";

const ANALYSING: &str = "  --limit N        the most steps, 100,000,000 unless given; at most 4,294,967,295
  --memory BYTES   the most memory to lend, 2G unless given; K, M and G are understood. The workspace, the queue in
                   it and the report grow up to that by themselves
";

const OPTIONS: &str = "  -o FILE          write the result to FILE
  --help           of the program, or of a command: genduvo list --help
  --version
";

const STATUS: &str = "
Status: 0 accepted or done, 1 refused, 2 for a wrong command line, a file that can't be read or written, or memory
that isn't allowed.
";

const LIST: &str = "\
genduvo list FILE: all facts of an accepted description

For each chunk its block type, its inputs and its result; for each instruction what the stack and the locals can
hold before it, what it gives, and what stands out:

  WORD:8                  a word, 8 bytes wide
  STRUCT 8..16 bytes      a body of 8 to 16 bytes; ? where that isn't known
  =L0                     it is what local 0 is
  owned                   a body of the script's own
  (ENUM test of L0)       a truth value: whether local 0 is an enum
  GUARD stack 0 is TRUE   tested before the instruction
  KNOWN true              a test that always goes this way
  NEVER                   an inspection that always says false
  never reached           no way leads there
  <- 13                   control comes from instruction 13, too, or only

Then the slots and the largest body of a reply.
";

const CHECK: &str = "\
genduvo check FILE: one line, accepted or refused

Accepted: steps, bytes of the report, words lent. Refused: the number, by whose doing, the place and the meaning.
";

const EXPLAIN: &str = "\
genduvo explain FILE: why a description is refused

For 1 to 4 the byte, the field and the rule; for 5 to 8 what was lent and what to do; for 9 to 12 what disagrees in
the description; for 13 to 18 the operands with the kinds found and wanted, and where they come from.
";

const DOT: &str = "\
genduvo dot FILE: the control flow of an accepted description, for Graphviz

  genduvo dot FILE | dot -Tsvg > flow.svg

Red: an instruction with a guard. Dashed and grey: code that is never reached, ways that are never taken.
Dotted: calls.
";

const JSON: &str = "\
genduvo json FILE: the answer and everything in the report as JSON

A refusal is JSON, too. Masks are a number and a list of names.
";

const BYTES: &str = "\
genduvo bytes FILE: the description as bytes

Bytes aren't written to a terminal: name a file with -o, or send them on.
";

const TEXT: &str = "\
genduvo text FILE: the description as text

Bytes that can't be read as fields come as lines `bytes 01 02 ..`.
";

/// The help of a command, or of the program.
pub fn text(command: Option<Command>) -> String {
    let head = match command {
        None => PROGRAM,
        Some(Command::List) => LIST,
        Some(Command::Check) => CHECK,
        Some(Command::Explain) => EXPLAIN,
        Some(Command::Dot) => DOT,
        Some(Command::Json) => JSON,
        Some(Command::Bytes) => BYTES,
        Some(Command::Text) => TEXT,
    };
    let narrowing = if command.is_none_or(Command::narrows) { NARROWING } else { "" };
    let analysing = if command.is_none_or(Command::analyses) { ANALYSING } else { "" };
    format!("{head}\n{narrowing}{analysing}{OPTIONS}{STATUS}")
}
