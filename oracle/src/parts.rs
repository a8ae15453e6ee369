//! The parts of the port that are timed apart. Not there where the port is one
//! library.

use oracle::timing::now;
use std::time::Duration;

/// The run alone: facts at the start, rounds, validation. The steps, where it is
/// accepted.
pub fn run(description: &[u8], workspace: &mut [u32], limit: u32) -> (Duration, Option<u32>) {
    let Ok(words) = form::check_form(description) else { return (Duration::ZERO, None) };
    let tables = index_fill::fill(description, workspace, words as usize);
    let began = now();
    let steps = start::start(description, workspace, tables)
        .and_then(|_| run::run(description, workspace, tables, limit))
        .ok();
    let time = now() - began;
    workspace.fill(0);
    (time, steps)
}
