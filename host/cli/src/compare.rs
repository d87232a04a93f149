//! `compare`: tells where two recordings differ, and draws them.

mod difference;
mod recording;

use std::ffi::OsString;
use std::fs;
use std::io::{self, Write};
use std::path::{Path, PathBuf};

use relay::recording::{compare, MAX_COMPARED};
use relay::{Key, Refusal};

use crate::arguments::{Arguments, Syntax};
use crate::failure::{misuse, trouble, About, Failure, Outcome};
use crate::files;
use crate::json::Json;
use crate::material::Secret;
use crate::opened;
use crate::picture;
use crate::Verdict;

pub use difference::{Comparison, Kind};
pub use recording::{Bodies, Recording};

const SYNTAX: Syntax = Syntax {
    values: &["--picture", "--method", "--key-file"],
    flags: &["--json", "--opened"],
    operands: &["FIRST", "SECOND"],
};

/// A recording as it was read.
struct Input {
    path: PathBuf,
    bytes: Vec<u8>,
}

pub fn run(arguments: Vec<OsString>) -> Outcome<Verdict> {
    let arguments = Arguments::parse(&SYNTAX, arguments)?;
    let (key, is_opened) = (key(&arguments)?, arguments.has("--opened"));
    let pair = [read(arguments.operand(0)?)?, read(arguments.operand(1)?)?];
    let refused = |refusal| refused(&pair, refusal);
    let as_they_are = compare(&pair[0].bytes, &pair[1].bytes).map_err(refused)?;
    let sealed = recordings(&pair).map_err(refused)?;
    let entries = sealed.each_ref().map(|sealed| &sealed.entries[..]);
    let opened = key.map(|key| opened::open(entries, &key));
    let opened = opened.transpose().about("opening")?;
    let recordings = match (&opened, sealed) {
        (Some(opened), [first, second]) if is_opened => {
            let (same, [one, other]) = (opened::same_series(opened), opened);
            [first.opened(one, &same), second.opened(other, &same)]
        }
        (_, sealed) => sealed,
    };
    let on_axis = recording::compare_on_axis(&recordings).map_err(refused)?;
    let text = if is_opened { &on_axis } else { &as_they_are };
    let comparison = understood(text)?;
    if let Some(path) = arguments.path("--picture")? {
        let (on_axis, differ) = (understood(&on_axis)?, comparison.differences.len());
        let svg = picture::draw(&recordings, &on_axis, differ, opened.as_ref());
        write_picture(&path, &pair, &svg)?;
    }
    let mut out = io::stdout().lock();
    let written = match arguments.has("--json") {
        true => writeln!(out, "{}", Json::from(&comparison)),
        false => out.write_all(text.as_bytes()),
    };
    Verdict::from(comparison.differences.is_empty()).once(written)
}

/// The key that opens datagrams, where the caller names a method whose datagrams have sessions.
fn key(arguments: &Arguments) -> Outcome<Option<Key>> {
    let is_wanted = arguments.has("--opened");
    let is_given = arguments.has("--method") || arguments.has("--key-file");
    if is_given && !is_wanted && !arguments.has("--picture") {
        let why = "--method and --key-file are for --opened and --picture";
        return Err(misuse(why));
    }
    if !is_given && !is_wanted {
        return Ok(None);
    }
    let method = arguments.read("--method")?;
    let method = method.ok_or_else(|| misuse("--method is missing"))?;
    let file = arguments.path("--key-file")?;
    match Secret::find(method, file.as_deref())? {
        Secret::Sip022(key) => Ok(Some(key)),
        Secret::Sip004(_) if is_wanted => {
            Err(misuse("--opened is for methods of the 2022 edition"))
        }
        Secret::Sip004(_) => Ok(None),
    }
}

fn read(path: PathBuf) -> Outcome<Input> {
    let bytes = files::read_front(&path, MAX_COMPARED)?;
    Ok(Input { path, bytes })
}

fn recordings(pair: &[Input; 2]) -> Result<[Recording<'_>; 2], Refusal> {
    let [first, second] = pair.each_ref().map(|input| {
        let name = input.path.display().to_string();
        Recording::new(name, &input.bytes)
    });
    Ok([first?, second?])
}

/// What the library's text says.
fn understood(text: &str) -> Outcome<Comparison> {
    text.parse().about("the library's text")
}

/// A refusal, with the first recording that is refused so.
fn refused(pair: &[Input; 2], refusal: Refusal) -> Failure {
    let is_faulty = |input: &&Input| {
        let bytes = &input.bytes;
        compare(bytes, bytes) == Err(refusal)
    };
    let faulty = pair.iter().find(is_faulty).unwrap_or(&pair[0]);
    let why = match refusal {
        Refusal::Length => format!("over {MAX_COMPARED} bytes"),
        Refusal::Malformed => "no well-formed recording".to_string(),
        other => other.to_string(),
    };
    let (name, number) = (faulty.path.display(), refusal.number());
    trouble(format!("{name}: refused {number}: {why}"))
}

fn write_picture(path: &Path, pair: &[Input; 2], svg: &str) -> Outcome<()> {
    let name = path.display();
    if pair.iter().any(|input| is_same_file(path, &input.path)) {
        return Err(misuse(format!("{name} is a recording, and would be lost")));
    }
    fs::write(path, svg).about(name)
}

fn is_same_file(one: &Path, other: &Path) -> bool {
    match (fs::canonicalize(one), fs::canonicalize(other)) {
        (Ok(one), Ok(other)) => one == other,
        _ => false,
    }
}
