// SPDX-License-Identifier: 0BSD
//! See `genduvo --help`.

use std::process::ExitCode;

fn main() -> ExitCode {
    ExitCode::from(genduvo_tool::run(std::env::args_os().skip(1)))
}
