//! Running the program, and recordings to give it.

use std::ffi::OsStr;
use std::fs;
use std::path::PathBuf;
use std::process::{Command, Output, Stdio};

/// A folder of its own for each test, which is empty.
pub fn folder(name: &str) -> PathBuf {
    let folder = PathBuf::from(env!("CARGO_TARGET_TMPDIR")).join(name);
    let _ = fs::remove_dir_all(&folder);
    fs::create_dir_all(&folder).unwrap();
    folder
}

/// The program with arguments, and nothing of the environment that it looks at.
pub fn program(arguments: &[impl AsRef<OsStr>]) -> Command {
    let mut command = Command::new(env!("CARGO_BIN_EXE_bhajnolith"));
    command.args(arguments).env_remove("BHAJNOLITH_KEY");
    command.stdin(Stdio::null());
    command
}

pub fn run(arguments: &[impl AsRef<OsStr>]) -> Output {
    program(arguments).output().unwrap()
}

/// Arguments of several kinds.
#[macro_export]
macro_rules! arguments {
    ($($argument:expr),* $(,)?) => {
        &[$(std::ffi::OsStr::new(&$argument).to_os_string()),*]
    };
}

/// Exit status and standard output. Nothing is on standard error.
pub fn said(output: Output) -> (i32, String) {
    let (status, out, error) = whole(output);
    assert_eq!(error, "");
    (status, out)
}

/// Exit status, standard output and standard error.
pub fn whole(output: Output) -> (i32, String, String) {
    let text = |bytes| String::from_utf8(bytes).unwrap();
    let status = output.status.code().expect("no signal ends it");
    (status, text(output.stdout), text(output.stderr))
}

/// Asserts status 2, nothing on standard output, and an error that begins so.
pub fn refused(output: Output, begins: &str) {
    let (status, out, error) = whole(output);
    assert_eq!((status, out.as_str()), (2, ""), "{error}");
    assert!(error.starts_with(begins), "{error} and not {begins}");
}

/// Direction, clock and body.
pub type Entry = (u8, u64, Vec<u8>);

pub fn recorded(entries: &[Entry]) -> Vec<u8> {
    let mut place = 4 + 15 * entries.len();
    let mut file = (entries.len() as u32).to_be_bytes().to_vec();
    for (direction, clock, body) in entries {
        file.extend((place as u32).to_be_bytes());
        file.extend((body.len() as u16).to_be_bytes());
        file.push(*direction);
        file.extend(clock.to_be_bytes());
        place += body.len();
    }
    file.extend(entries.iter().flat_map(|(_, _, body)| body));
    file
}

/// How many times a text has a part.
pub fn count(text: &str, part: &str) -> usize {
    text.matches(part).count()
}
