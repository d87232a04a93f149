//! Which processors the relays and the generator have. `taskset` (util-linux) binds them: the
//! standard library cannot.

use std::env;
use std::ffi::OsStr;
use std::fs;
use std::io;
use std::process::{self, Command, Stdio};

use super::Outcome;

pub const TASKSET: &str = "taskset";

/// One for the relays and another for this process, where there are two.
#[derive(Clone, Copy, Debug, PartialEq, Eq)]
pub struct Cores {
    pub relay: usize,
    pub generator: usize,
}

impl Cores {
    /// The first and the last that this process may use.
    pub fn of_this_process() -> Outcome<Self> {
        let status = fs::read_to_string("/proc/self/status")?;
        let list = status
            .lines()
            .find_map(|line| line.strip_prefix("Cpus_allowed_list:"));
        let cores = list.and_then(|list| Self::of_list(list.trim()));
        cores.ok_or_else(|| "the system does not tell which processors there are".into())
    }

    /// Of a list like `0-3,6`.
    fn of_list(list: &str) -> Option<Self> {
        let first = list.split(['-', ',']).next()?;
        let last = list.rsplit(['-', ',']).next()?;
        Some(Self {
            relay: last.parse().ok()?,
            generator: first.parse().ok()?,
        })
    }

    pub fn are_two(self) -> bool {
        self.relay != self.generator
    }

    /// A command that runs a program on the relay's processor.
    pub fn command(self, program: impl AsRef<OsStr>) -> Command {
        let mut command = Command::new(TASKSET);
        command.args(["-c", &self.relay.to_string()]).arg(program);
        command
    }

    /// Binds this thread, the program's first, to the generator's processor for good.
    pub fn bind_generator(self) -> io::Result<()> {
        let status = Command::new(TASKSET)
            .args(["-c", "-p", &self.generator.to_string()])
            .arg(process::id().to_string())
            .stdout(Stdio::null())
            .status()?;
        if status.success() {
            Ok(())
        } else {
            Err(io::Error::other(format!("{TASKSET}: {status}")))
        }
    }
}

/// Whether a program stands in one of the folders that commands are looked for in.
pub fn is_installed(program: &str) -> bool {
    let folders = env::var_os("PATH").unwrap_or_default();
    env::split_paths(&folders).any(|folder| folder.join(program).is_file())
}

#[cfg(test)]
mod tests {
    use super::Cores;

    #[test]
    fn the_first_and_the_last() {
        for (list, generator, relay) in [("0-1", 0, 1), ("3", 3, 3), ("0-3,6", 0, 6), ("2,5", 2, 5)]
        {
            let cores = Cores::of_list(list).expect(list);
            assert_eq!((cores.generator, cores.relay), (generator, relay));
            assert_eq!(cores.are_two(), generator != relay);
        }
        assert_eq!(Cores::of_list(""), None);
    }
}
