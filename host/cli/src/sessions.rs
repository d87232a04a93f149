//! `sessions`: what the session tables of a running box say.

mod group;
mod show;

use std::ffi::OsString;
use std::io::{self, BufReader, IsTerminal, Write};
use std::os::unix::net::UnixStream;
use std::path::Path;
use std::thread;
use std::time::Duration;

use crate::arguments::{Arguments, Syntax};
use crate::failure::{misuse, About, Outcome};
use crate::status::Snapshot;
use crate::Verdict;

use group::{Groups, Ids};

const SYNTAX: Syntax = Syntax {
    values: &["--watch", "--idle", "--loaded"],
    flags: &["--json"],
    operands: &["SOCKET"],
};

/// A box answers at once; one that does not has an error.
const PATIENCE: Duration = Duration::from_secs(5);

/// Clears a terminal and goes to its first place.
const CLEAR: &str = "\x1b[2J\x1b[H";

pub fn run(arguments: Vec<OsString>) -> Outcome<Verdict> {
    let arguments = Arguments::parse(&SYNTAX, arguments)?;
    let socket = arguments.operand(0)?;
    let groups = Groups::new(
        arguments.read("--idle")?.map(|Ids(ids)| ids),
        arguments.read("--loaded")?.map(|Ids(ids)| ids),
    )?;
    let watch: Option<u64> = arguments.read("--watch")?;
    if watch == Some(0) {
        return Err(misuse("--watch wants 1 second or more"));
    }
    let is_json = arguments.has("--json");
    let mut is_first = true;
    loop {
        let snapshot = take(&socket)?;
        let mut out = io::stdout().lock();
        if is_json {
            writeln!(out, "{}", show::to_json(&snapshot, &groups))?;
        } else {
            let is_screen = watch.is_some() && io::stdout().is_terminal();
            let front = match is_screen {
                true => CLEAR,
                false if is_first => "",
                false => "\n",
            };
            write!(out, "{front}{}", show::to_text(&snapshot, &groups))?;
        }
        out.flush()?;
        drop(out);
        let Some(seconds) = watch else {
            return Ok(Verdict::Yes);
        };
        is_first = false;
        thread::sleep(Duration::from_secs(seconds));
    }
}

/// The box's snapshot at this moment.
fn take(socket: &Path) -> Outcome<Snapshot> {
    let snapshot = UnixStream::connect(socket).and_then(|stream| {
        stream.set_read_timeout(Some(PATIENCE))?;
        Snapshot::read(&mut BufReader::new(stream))
    });
    snapshot.about(socket.display())
}
