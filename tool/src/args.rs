//! The command line.

use std::ffi::{OsStr, OsString};
use std::path::PathBuf;

/// What the program can be asked for.
#[derive(Debug, Clone, Copy, PartialEq, Eq)]
pub enum Command {
    /// The listing of all facts.
    List,
    /// One line: accepted or refused.
    Check,
    /// Why a description is refused.
    Explain,
    /// The control flow as Graphviz text.
    Dot,
    /// The report as JSON.
    Json,
    /// A description's bytes.
    Bytes,
    /// A description as text.
    Text,
}

impl Command {
    /// All commands with their names.
    pub const ALL: [(&'static str, Command); 7] = [
        ("list", Command::List),
        ("check", Command::Check),
        ("explain", Command::Explain),
        ("dot", Command::Dot),
        ("json", Command::Json),
        ("bytes", Command::Bytes),
        ("text", Command::Text),
    ];

    /// The command of this name.
    pub fn from_name(name: &str) -> Option<Command> {
        Command::ALL.iter().find(|(known, _)| *known == name).map(|(_, command)| *command)
    }

    /// Its name.
    pub fn name(self) -> &'static str {
        Command::ALL.iter().find(|(_, command)| *command == self).map_or("", |(name, _)| name)
    }

    /// Whether the command calls the library, so that a limit and memory mean something.
    pub fn analyses(self) -> bool {
        !matches!(self, Command::Bytes | Command::Text)
    }

    /// Whether its output can be narrowed to a chunk.
    pub fn narrows(self) -> bool {
        matches!(self, Command::List | Command::Dot)
    }
}

/// The most steps, unless `--limit` says otherwise.
pub const LIMIT: u32 = 100_000_000;
/// The most memory to lend, in bytes, unless `--memory` says otherwise.
pub const MEMORY: u64 = 2 << 30;

/// A command with its options.
#[derive(Debug, Clone, PartialEq, Eq)]
pub struct Options {
    /// What to do.
    pub command: Command,
    /// The file; None for standard input.
    pub file: Option<PathBuf>,
    /// The only chunk to show.
    pub chunk: Option<u16>,
    /// The most steps.
    pub limit: u32,
    /// The most memory to lend, in bytes.
    pub memory: u64,
    /// Where the result goes; None for standard output.
    pub output: Option<PathBuf>,
}

/// What a command line asks for.
#[derive(Debug, Clone, PartialEq, Eq)]
pub enum Asked {
    /// A command to be done.
    Run(Options),
    /// The help of the program or of one command.
    Help(Option<Command>),
    /// The version.
    Version,
}

/// What was read of the command line so far.
#[derive(Default)]
struct Line {
    command: Option<Command>,
    file: Option<OsString>,
    chunk: Option<u16>,
    limit: Option<u32>,
    memory: Option<u64>,
    output: Option<PathBuf>,
    help: bool,
    version: bool,
    /// All that follows is a name, after `--`.
    names_only: bool,
}

/// Reads a command line, without the program's name.
pub fn parse(args: impl IntoIterator<Item = OsString>) -> Result<Asked, String> {
    let mut line = Line::default();
    let mut args = args.into_iter();
    while let Some(arg) = args.next() {
        let text = arg.to_str().filter(|text| !line.names_only && text.len() > 1 && text.starts_with('-'));
        match text {
            Some(option) => line.option(option, &mut args)?,
            None => line.word(arg)?,
        }
    }
    line.finish()
}

impl Line {
    /// A word that is no option: the command, then the file.
    fn word(&mut self, word: OsString) -> Result<(), String> {
        if self.command.is_none() {
            let name = word.to_string_lossy();
            let known = Command::from_name(&name);
            self.command = Some(known.ok_or_else(|| format!("no command is named {name}"))?);
            return Ok(());
        }
        if self.file.is_some() {
            return Err(format!("one FILE at a time: {}", word.to_string_lossy()));
        }
        self.file = Some(word);
        Ok(())
    }

    fn option(&mut self, option: &str, rest: &mut impl Iterator<Item = OsString>) -> Result<(), String> {
        let (name, attached) = match option.split_once('=') {
            Some((name, value)) if name.starts_with("--") => (name, Some(OsString::from(value))),
            _ => (option, None),
        };
        if attached.is_none() && self.flag(name) {
            return Ok(());
        }
        if !matches!(name, "--chunk" | "--limit" | "--memory" | "-o" | "--output") {
            return Err(format!("no option is named {option}"));
        }
        let value = attached.or_else(|| rest.next()).ok_or_else(|| format!("{name} wants a value"))?;
        self.valued(name, &value)
    }

    /// The options without value; false for any other.
    fn flag(&mut self, name: &str) -> bool {
        match name {
            "--help" | "-h" => self.help = true,
            "--version" | "-V" => self.version = true,
            "--" => self.names_only = true,
            _ => return false,
        }
        true
    }

    fn valued(&mut self, name: &str, value: &OsStr) -> Result<(), String> {
        let text = value.to_string_lossy();
        let wrong = |what: &str| format!("{name} wants {what}: {text}");
        match name {
            "--chunk" => self.chunk = Some(text.parse().map_err(|_| wrong("the number of a chunk"))?),
            "--limit" => self.limit = Some(plain(&text).parse().map_err(|_| wrong("a number of steps below 2^32"))?),
            "--memory" => {
                self.memory = Some(bytes(&text).ok_or_else(|| wrong("a number of bytes, with K, M or G or without"))?)
            }
            _ => self.output = Some(PathBuf::from(value)),
        }
        Ok(())
    }

    fn finish(self) -> Result<Asked, String> {
        if self.help {
            return Ok(Asked::Help(self.command));
        }
        if self.version {
            return Ok(Asked::Version);
        }
        let command = self.command.ok_or("a command is wanted")?;
        let file = self.file.ok_or_else(|| format!("{} wants a FILE, or - for standard input", command.name()))?;
        let misplaced = [
            ("--chunk", self.chunk.is_some() && !command.narrows()),
            ("--limit", self.limit.is_some() && !command.analyses()),
            ("--memory", self.memory.is_some() && !command.analyses()),
        ];
        if let Some((option, _)) = misplaced.iter().find(|(_, misplaced)| *misplaced) {
            return Err(format!("{option} has no meaning for {}", command.name()));
        }
        Ok(Asked::Run(Options {
            command,
            file: (file != "-").then(|| PathBuf::from(file)),
            chunk: self.chunk,
            limit: self.limit.unwrap_or(LIMIT),
            memory: self.memory.unwrap_or(MEMORY),
            output: self.output,
        }))
    }
}

/// Digits may be grouped: 100,000,000 and 100_000_000.
fn plain(text: &str) -> String {
    text.chars().filter(|sign| !matches!(sign, ',' | '_')).collect()
}

/// A number of bytes, in units of 1,024, 1,048,576 or 1,073,741,824 with K, M or G.
fn bytes(text: &str) -> Option<u64> {
    let text = plain(text);
    let units = [('K', 10), ('k', 10), ('M', 20), ('m', 20), ('G', 30), ('g', 30)];
    let unit = units.iter().find_map(|(letter, shift)| Some((text.strip_suffix(*letter)?, *shift)));
    let (digits, shift) = unit.unwrap_or((&text, 0));
    digits.parse::<u64>().ok()?.checked_mul(1 << shift)
}

#[cfg(test)]
mod tests {
    use super::*;

    fn parsed(words: &[&str]) -> Result<Asked, String> {
        parse(words.iter().map(OsString::from))
    }

    #[test]
    fn options_stand_anywhere() {
        let Ok(Asked::Run(options)) = parsed(&["--limit", "1,000", "list", "--chunk=2", "a.bin", "--memory", "3M"])
        else {
            panic!("a good line");
        };
        assert_eq!(options.command, Command::List);
        assert_eq!((options.limit, options.chunk, options.memory), (1000, Some(2), 3 << 20));
        assert_eq!(options.file, Some(PathBuf::from("a.bin")));
    }

    #[test]
    fn a_dash_is_standard_input_and_names_may_begin_with_one() {
        let Ok(Asked::Run(options)) = parsed(&["check", "-"]) else { panic!("a good line") };
        assert_eq!(options.file, None);
        let Ok(Asked::Run(options)) = parsed(&["check", "--", "--help"]) else { panic!("a good line") };
        assert_eq!(options.file, Some(PathBuf::from("--help")));
    }

    #[test]
    fn help_and_version() {
        assert_eq!(parsed(&["--help"]), Ok(Asked::Help(None)));
        assert_eq!(parsed(&["dot", "--help"]), Ok(Asked::Help(Some(Command::Dot))));
        assert_eq!(parsed(&["--version"]), Ok(Asked::Version));
    }

    #[test]
    fn what_is_wrong_is_said() {
        for (words, part) in [
            (&["lits", "x"][..], "no command is named lits"),
            (&["list"], "wants a FILE"),
            (&[], "a command is wanted"),
            (&["list", "a", "b"], "one FILE"),
            (&["list", "a", "--chunk"], "--chunk wants a value"),
            (&["list", "a", "--chunk", "x"], "the number of a chunk"),
            (&["check", "a", "--chunk", "1"], "--chunk has no meaning for check"),
            (&["text", "a", "--limit", "1"], "--limit has no meaning for text"),
            (&["check", "a", "--limit", "4294967296"], "below 2^32"),
            (&["check", "a", "--memory", "lots"], "a number of bytes"),
            (&["check", "a", "--memory", "99999999999G"], "a number of bytes"),
            (&["check", "a", "--colour"], "no option is named --colour"),
        ] {
            let said = parsed(words).expect_err("a bad line");
            assert!(said.contains(part), "{words:?}: {said}");
        }
    }
}
