//! What the program is asked for.

use std::ffi::OsString;
use std::path::PathBuf;
use std::time::Duration;

pub const USAGE: &str = "\
usage: bench [--quick] [--out DIR]

  --quick    few and short rounds: shows that all works, its figures are rough
  --out DIR  where speed.txt and speed.svg go; target/bench if not given";

/// Arguments that the program gives to its child.
pub const CHILD: &str = "--child";
pub const QUICK: &str = "--quick";

const OUT: &str = "--out";
const DEFAULT_OUT: &str = "target/bench";

/// How long is measured.
#[derive(Clone, Copy, Debug, PartialEq, Eq)]
pub struct Pace {
    /// One more than a multiple of four, so that the quartiles are samples.
    pub rounds: usize,
    /// How many batches of calls a round times, the least of which is its sample.
    pub batches: usize,
    /// The shortest time of a batch: the clock must be fine enough for it, and it is short
    /// beside what the system lets a process run for, so that most batches are not
    /// interrupted.
    pub batch: Duration,
}

impl Pace {
    pub const FULL: Pace = Pace {
        rounds: 13,
        batches: 7,
        batch: Duration::from_micros(500),
    };

    /// Shows that the program works; its figures are rough.
    pub const QUICK: Pace = Pace {
        rounds: 5,
        batches: 3,
        batch: Duration::from_micros(100),
    };
}

#[derive(Debug, PartialEq, Eq)]
pub enum Task {
    Run {
        pace: Pace,
        out: PathBuf,
    },
    /// To be the process whose libraries have no processor instructions.
    Serve {
        pace: Pace,
    },
    Help,
}

impl Task {
    /// From the arguments behind the program's name.
    pub fn of(arguments: impl IntoIterator<Item = OsString>) -> Result<Self, String> {
        let mut arguments = arguments.into_iter();
        let (mut pace, mut out, mut child) = (Pace::FULL, PathBuf::from(DEFAULT_OUT), false);
        while let Some(argument) = arguments.next() {
            match argument.to_str() {
                Some(QUICK) => pace = Pace::QUICK,
                Some(OUT) => out = folder(arguments.next())?,
                Some(CHILD) => child = true,
                Some("--help") => return Ok(Task::Help),
                _ => return Err(format!("unknown argument {argument:?}\n{USAGE}")),
            }
        }
        Ok(if child {
            Task::Serve { pace }
        } else {
            Task::Run { pace, out }
        })
    }
}

/// What stands behind `--out`.
fn folder(argument: Option<OsString>) -> Result<PathBuf, String> {
    let is_folder = |argument: &OsString| !argument.as_encoded_bytes().starts_with(b"-");
    match argument.filter(is_folder) {
        Some(folder) => Ok(folder.into()),
        None => Err(format!("--out wants a folder\n{USAGE}")),
    }
}

#[cfg(test)]
mod tests {
    use super::{Pace, Task, DEFAULT_OUT};

    fn of(arguments: &[&str]) -> Result<Task, String> {
        Task::of(arguments.iter().map(Into::into))
    }

    fn run(pace: Pace, out: &str) -> Result<Task, String> {
        let out = out.into();
        Ok(Task::Run { pace, out })
    }

    #[test]
    fn arguments_in_any_order() {
        assert_eq!(of(&[]), run(Pace::FULL, DEFAULT_OUT));
        assert_eq!(of(&["--quick"]), run(Pace::QUICK, DEFAULT_OUT));
        assert_eq!(of(&["--out", "a", "--quick"]), run(Pace::QUICK, "a"));
        let pace = Pace::QUICK;
        assert_eq!(of(&["--child", "--quick"]), Ok(Task::Serve { pace }));
        assert_eq!(of(&["--help"]), Ok(Task::Help));
    }

    #[test]
    fn others_are_refused() {
        assert!(of(&["--out"]).is_err());
        assert!(of(&["--out", "--quick"]).is_err());
        assert!(of(&["quick"]).is_err());
    }
}
