//! `bhajnolith`: the relay box, the branch box and their tools.
//!
//! What matters is decided by the proved library behind the crate `relay`. This program brings
//! sockets, the clock, random numbers and files.
//!
//! `tests/loopback` runs both boxes against each other on the loopback interface: every method,
//! a minute of 64 senders through a bad network, restarts, and what is to be refused.
//! `tests/peers/run` at the root runs them against shadowsocks-libev.

#![forbid(unsafe_code)]

mod arguments;
mod compare;
mod connect;
mod failure;
mod files;
mod help;
mod json;
mod keygen;
mod material;
mod mend;
mod opened;
mod picture;
mod plan;
mod random;
mod relaying;
mod replace;
mod serve;
mod sessions;
mod settings;
mod status;

use std::env;
use std::ffi::OsString;
use std::io::{self, Write};
use std::process::ExitCode;

use failure::{misuse, tell, Failure, Outcome};

/// What a command answers where it has something to say no to.
#[derive(Clone, Copy, PartialEq, Eq)]
pub enum Verdict {
    Yes,
    No,
}

impl Verdict {
    /// The answer once it is written; it stays the answer where nobody reads the output any more.
    pub fn once(self, written: io::Result<()>) -> Outcome<Self> {
        match written.map_err(Failure::from) {
            Ok(()) | Err(Failure::OutputClosed) => Ok(self),
            Err(failure) => Err(failure),
        }
    }
}

impl From<bool> for Verdict {
    fn from(is_yes: bool) -> Self {
        if is_yes {
            Self::Yes
        } else {
            Self::No
        }
    }
}

/// Exit statuses, as `diff` and `grep` have them.
const NO: u8 = 1;
const TROUBLE: u8 = 2;

type Run = fn(Vec<OsString>) -> Outcome<Verdict>;

/// The commands: name, usage, and what runs it.
const COMMANDS: [(&str, &str, Run); 8] = [
    ("serve", help::SERVE, serve::run),
    ("connect", help::CONNECT, connect::run),
    ("sessions", help::SESSIONS, sessions::run),
    ("compare", help::COMPARE, compare::run),
    ("mend", help::MEND, mend::run),
    ("plan", help::PLAN, plan::run),
    ("settings", help::SETTINGS, settings::run),
    ("keygen", help::KEYGEN, keygen::run),
];

fn main() -> ExitCode {
    let mut arguments = env::args_os().skip(1);
    let Some(name) = arguments.next() else {
        return ended("", Err(misuse("no command")));
    };
    let rest: Vec<OsString> = arguments.collect();
    let is_help = |argument: &OsString| argument == "--help" || argument == "-h";
    // Behind `--` all are operands.
    let mut options = rest.iter().take_while(|argument| *argument != "--");
    let command = COMMANDS.iter().find(|(known, ..)| name == *known);
    match command {
        Some((_, usage, _)) if options.any(is_help) => show(usage),
        Some((name, _, run)) => ended(name, run(rest)),
        None if is_help(&name) => show(help::GENERAL),
        None if name == "--version" => {
            show(concat!("bhajnolith ", env!("CARGO_PKG_VERSION"), "\n"))
        }
        None => ended("", Err(misuse(format!("{name:?} is no command")))),
    }
}

fn show(text: &str) -> ExitCode {
    let written = io::stdout().lock().write_all(text.as_bytes());
    ended("", Verdict::Yes.once(written))
}

/// Tells what went wrong in a command, if it was in one, and gives the exit status.
fn ended(command: &str, outcome: Outcome<Verdict>) -> ExitCode {
    let (message, is_misuse) = match outcome {
        Ok(Verdict::Yes) | Err(Failure::OutputClosed) => return ExitCode::SUCCESS,
        Ok(Verdict::No) => return ExitCode::from(NO),
        Err(Failure::Misuse(message)) => (message, true),
        Err(Failure::Trouble(message)) => (message, false),
    };
    let [colon, space] = match command {
        "" => ["", ""],
        _ => [": ", " "],
    };
    tell(format_args!("bhajnolith{colon}{command}: {message}"));
    if is_misuse {
        tell(format_args!(
            "`bhajnolith{space}{command} --help` tells how it is used"
        ));
    }
    ExitCode::from(TROUBLE)
}
