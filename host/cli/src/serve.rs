//! `serve`: the relay box.

mod clients;
mod older_clients;
pub mod recorder;
mod service;
mod state;
mod streams;

use std::ffi::OsString;
use std::fs::{self, DirBuilder};
use std::io::{self, Write};
use std::os::unix::fs::{DirBuilderExt, FileTypeExt, PermissionsExt};
use std::os::unix::net::{UnixListener, UnixStream};
use std::path::{Path, PathBuf};
use std::process;
use std::sync::Arc;
use std::thread;
use std::time::Duration;

use relay::Clock;

use crate::arguments::{Arguments, Syntax};
use crate::failure::{misuse, About, Outcome};
use crate::relaying::service::Limits;
use crate::relaying::{rest, start};
use crate::status::Snapshot;
use crate::Verdict;
use recorder::Recorder;
use service::Running;

const SYNTAX: Syntax = Syntax {
    values: &[
        "--listen",
        "--settings",
        "--method",
        "--key-file",
        "--retention",
        "--limit",
        "--target",
        "--state",
        "--status",
        "--record",
        "--record-files",
        "--streams",
        "--idle",
        "--clock-offset",
    ],
    flags: &[],
    operands: &[],
};

/// The options for all services, wherever they stand.
const FOR_ALL: [&str; 6] = [
    "--status",
    "--record",
    "--record-files",
    "--streams",
    "--idle",
    "--clock-offset",
];

/// Only its owner asks a box for its status.
const OWNERS_ALONE: u32 = 0o600;
const OWNERS_FOLDER: u32 = 0o700;

/// How long a reader of the status may take.
const STATUS_PATIENCE: Duration = Duration::from_secs(2);

pub fn run(arguments: Vec<OsString>) -> Outcome<Verdict> {
    let mut arguments = Arguments::parse(&SYNTAX, arguments)?;
    let for_all = arguments.take(&FOR_ALL);
    let (front, parts) = arguments.split("--listen");
    if let Some(name) = front.first() {
        return Err(misuse(format!("{name} stands before any --listen")));
    }
    if parts.is_empty() {
        return Err(misuse("--listen is missing"));
    }
    let (limits, recorder) = (Limits::read(&for_all)?, recorder(&for_all)?);
    let start = |part| Running::start(part, &limits, recorder.as_ref());
    let running: Vec<Running> = parts.iter().map(start).collect::<Outcome<_>>()?;
    let status = match for_all.path("--status")? {
        Some(path) => Some(bind_status(&path).about(path.display())?),
        None => None,
    };
    // Who reads this may send, and ask for the status.
    running.iter().for_each(Running::announce);
    if let Some(listener) = status {
        answer_status(listener, limits.clock, recorder, running).about("a thread")?;
    }
    // The threads run until the program is killed.
    loop {
        thread::park();
    }
}

/// Starts the thread that tells what the box knows.
fn answer_status(
    listener: UnixListener,
    clock: Arc<Clock>,
    recorder: Option<Arc<Recorder>>,
    running: Vec<Running>,
) -> io::Result<()> {
    let started = clock.now();
    let answer = move |mut asked: UnixStream| -> io::Result<()> {
        asked.set_write_timeout(Some(STATUS_PATIENCE))?;
        let snapshot = Snapshot {
            clock: clock.now(),
            started,
            not_recorded: recorder.as_ref().map_or(0, |recorder| recorder.left_out()),
            services: running.iter().map(Running::snapshot).collect(),
        };
        asked.write_all(&snapshot.to_bytes())
    };
    let work = move || loop {
        match listener.accept() {
            // A reader that goes away is its own affair.
            Ok((asked, _)) => drop(answer(asked)),
            Err(_) => rest(),
        }
    };
    start("status", work)
}

/// Binds the socket, in a folder that nobody else enters until it has its mode. One that a box has
/// left behind is replaced.
fn bind_status(path: &Path) -> io::Result<UnixListener> {
    if UnixStream::connect(path).is_ok() {
        return Err(io::ErrorKind::AddrInUse.into());
    }
    let is_other = |there: fs::Metadata| !there.file_type().is_socket();
    if fs::symlink_metadata(path).is_ok_and(is_other) {
        return Err(io::ErrorKind::AlreadyExists.into());
    }
    let mut folder = path.as_os_str().to_os_string();
    folder.push(format!(".{}", process::id()));
    let folder = PathBuf::from(folder);
    DirBuilder::new().mode(OWNERS_FOLDER).create(&folder)?;
    let inside = folder.join("s");
    let bound = UnixListener::bind(&inside).and_then(|listener| {
        fs::set_permissions(&inside, fs::Permissions::from_mode(OWNERS_ALONE))?;
        fs::rename(&inside, path)?;
        Ok(listener)
    });
    // Empty, or with what could not be renamed.
    let _ = fs::remove_dir_all(&folder);
    bound
}

/// Where a recording goes.
fn recorder(arguments: &Arguments) -> Outcome<Option<Arc<Recorder>>> {
    let most = arguments.read::<u64>("--record-files")?;
    let path: Option<PathBuf> = arguments.path("--record")?;
    match (path, most) {
        (None, Some(_)) => Err(misuse("--record-files wants --record")),
        (_, Some(0)) => Err(misuse("--record-files wants 1 or more")),
        (None, None) => Ok(None),
        (Some(path), most) => {
            let about = path.display().to_string();
            let recorder = Recorder::start(path, most).about(about)?;
            Ok(Some(Arc::new(recorder)))
        }
    }
}
