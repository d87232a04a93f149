//! How a command ends that has no answer.

use std::fmt;
use std::io::{self, Write};

/// Why a command gives up.
#[derive(Debug)]
pub enum Failure {
    /// The arguments are not understood; the usage tells how they are given.
    Misuse(String),
    /// Something that was given is refused, or the host has an error.
    Trouble(String),
    /// Nobody reads the output any more.
    OutputClosed,
}

pub type Outcome<T> = Result<T, Failure>;

pub fn misuse(message: impl Into<String>) -> Failure {
    Failure::Misuse(message.into())
}

pub fn trouble(message: impl Into<String>) -> Failure {
    Failure::Trouble(message.into())
}

/// Tells something beside the results. Where standard error is gone, there is nobody to tell.
pub fn tell(message: impl fmt::Display) {
    let _ = writeln!(io::stderr(), "{message}");
}

/// Says of an error what it is about.
pub trait About<T> {
    fn about(self, what: impl fmt::Display) -> Outcome<T>;
}

impl<T, E: fmt::Display> About<T> for Result<T, E> {
    fn about(self, what: impl fmt::Display) -> Outcome<T> {
        self.map_err(|error| trouble(format!("{what}: {error}")))
    }
}

/// For output: a reader that has gone away is no error.
impl From<io::Error> for Failure {
    fn from(error: io::Error) -> Self {
        match error.kind() {
            io::ErrorKind::BrokenPipe => Self::OutputClosed,
            _ => Self::Trouble(format!("output: {error}")),
        }
    }
}

impl fmt::Display for Failure {
    fn fmt(&self, f: &mut fmt::Formatter<'_>) -> fmt::Result {
        match self {
            Self::Misuse(message) | Self::Trouble(message) => f.write_str(message),
            Self::OutputClosed => f.write_str("nobody reads the output"),
        }
    }
}
