// SPDX-License-Identifier: 0BSD
//! The program `genduvo`: the value-kind facts of a coroutine script, for people.
//!
//! Each command is a module: [`list`], [`explain`], [`dot`], [`json`]; [`run`] reads the command line and calls them.
//! What is said of a description is what the proved library answers; only the form of a refused description is walked
//! once more here ([`form`]), to name the byte.
#![deny(missing_docs)]

pub mod args;
pub mod asks;
pub mod dot;
pub mod explain;
pub mod facts;
pub mod flow;
pub mod form;
mod help;
pub mod input;
pub mod json;
pub mod lend;
pub mod list;
mod output;
pub mod pack;
mod progress;
pub mod show;
pub mod stop;

use args::{Asked, Command, Options};
use facts::Facts;
use genduvo::description::{Description, bytes_to_text};
use genduvo::{By, Refusal};
use lend::{Accepted, Bounds, Lent, Outcome, analyse};
use output::Output;
use show::counted;
use std::ffi::OsString;
use std::io::{self, Write};
use stop::{Status, Stop, failed};

/// Does what a command line asks for; answers the exit status.
pub fn run(args: impl IntoIterator<Item = OsString>) -> u8 {
    const FAILED: u8 = 2;
    let asked = args::parse(args).map_err(|error| Stop::Failed(format!("{error}\nsee genduvo --help")));
    match asked.and_then(answer) {
        Ok(status) => status.code(),
        // Who has read enough closes the pipe: that is no fault.
        Err(Stop::Closed) => Status::Good.code(),
        Err(Stop::Failed(message)) => {
            tell(&message);
            FAILED
        }
    }
}

/// A message; where standard error is closed there is nobody to be told.
fn tell(message: &str) {
    let _ = writeln!(io::stderr(), "genduvo: {message}");
}

fn answer(asked: Asked) -> Result<Status, Stop> {
    let options = match asked {
        Asked::Run(options) => options,
        Asked::Help(command) => return said(&help::text(command)),
        Asked::Version => return said(&format!("genduvo {}\n", genduvo::VERSION)),
    };
    let bytes = input::description(options.file.as_deref())?;
    let mut out = Output::new(options.output.clone());
    let status = command(&mut out, &bytes, &options)?;
    Ok(status)
}

fn said(text: &str) -> Result<Status, Stop> {
    let mut out = Output::new(None);
    out.write_all(text.as_bytes())?;
    out.flush()?;
    Ok(Status::Good)
}

fn command(out: &mut Output, bytes: &[u8], options: &Options) -> Result<Status, Stop> {
    let status = match options.command {
        Command::Bytes if out.is_terminal() => {
            return failed("bytes aren't written to a terminal: name a file with -o");
        }
        Command::Bytes => out.write_all(bytes).map(|()| Status::Good)?,
        Command::Text => out.write_all(bytes_to_text(bytes).as_bytes()).map(|()| Status::Good)?,
        Command::Explain => explain::write(out, bytes, &Bounds::of(options))?,
        _ => match analyse(bytes, &Bounds::of(options))? {
            Outcome::Accepted(accepted) => accepted_by(out, bytes, options, &accepted)?,
            Outcome::Refused(refusal, lent) => return refused_by(out, options, &refusal, lent),
        },
    };
    out.flush()?;
    Ok(status)
}

fn accepted_by(out: &mut Output, bytes: &[u8], options: &Options, accepted: &Accepted) -> Result<Status, Stop> {
    if options.command == Command::Check {
        let (steps, report) = (counted(accepted.steps.into(), "step"), counted(accepted.report.len() as u64, "byte"));
        let words = counted(accepted.lent.words as u64, "word");
        writeln!(out, "accepted: {steps}, a report of {report}, {words} lent")?;
        return Ok(Status::Good);
    }
    let d = Description::from_bytes(bytes).or_else(|error| failed(format!("an accepted description: {error}")))?;
    let facts = Facts::new(&d, &accepted.report)?;
    let numbers = facts.numbers(options.chunk)?;
    match options.command {
        Command::Dot => dot::write(out, &facts, &numbers)?,
        Command::Json => json::accepted(out, &facts, accepted)?,
        _ => list::write(out, &facts, accepted, &numbers)?,
    }
    Ok(Status::Good)
}

/// A refusal is the result of `check` and `json`, and a message of `list` and `dot`.
fn refused_by(out: &mut Output, options: &Options, refusal: &Refusal, lent: Option<Lent>) -> Result<Status, Stop> {
    match options.command {
        Command::Check => writeln!(out, "{refusal}")?,
        Command::Json => json::refused(out, refusal, lent)?,
        _ => {
            let name = input::name(options.file.as_deref());
            tell(&format!("{name}: {refusal}; genduvo explain says why"));
        }
    }
    if matches!(options.command, Command::Check | Command::Json) {
        out.flush()?;
    }
    if refusal.reason.by() == By::Host {
        tell(&explain::advice(refusal.reason, lent, &Bounds::of(options)));
    }
    Ok(explain::status(refusal))
}
