//! What ends the program before its result is whole.

use std::io;

/// Why a command ends early.
#[derive(Debug)]
pub enum Stop {
    /// The reader of the output has gone: nothing more to do.
    Closed,
    /// A message for standard error, with status 2.
    Failed(String),
}

/// What a command that came to its end says of the description.
#[derive(Debug, Clone, Copy, PartialEq, Eq)]
pub enum Status {
    /// Accepted, or done.
    Good,
    /// Refused.
    Refused,
    /// Refused for memory that isn't allowed.
    Short,
}

impl Status {
    /// The exit status.
    pub fn code(self) -> u8 {
        match self {
            Status::Good => 0,
            Status::Refused => 1,
            Status::Short => 2,
        }
    }
}

impl From<io::Error> for Stop {
    fn from(error: io::Error) -> Stop {
        match error.kind() {
            io::ErrorKind::BrokenPipe => Stop::Closed,
            _ => Stop::Failed(format!("the result can't be written: {error}")),
        }
    }
}

/// A failure to be told.
pub fn failed<T>(message: impl Into<String>) -> Result<T, Stop> {
    Err(Stop::Failed(message.into()))
}
