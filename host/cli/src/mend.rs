//! `mend`: mends a damaged recording.
//!
//! It prints each field of the contents that it changed, in the order of the file, and
//! how many there were. The mended recording is written to a temporary file beside the
//! old one, which then takes its name, so that a fault on the way loses nothing. A
//! recording that needs no mending is not written at all.

use std::ffi::OsString;
use std::fs;
use std::io::{self, Write};
use std::path::Path;

use relay::recording::{self, Change, Field};

use crate::arguments::{Arguments, Syntax};
use crate::failure::{trouble, About, Outcome};
use crate::json::Json;
use crate::replace::replace;
use crate::Verdict;

const SYNTAX: Syntax = Syntax {
    values: &[],
    flags: &["--json"],
    operands: &["FILE"],
};

pub fn run(arguments: Vec<OsString>) -> Outcome<Verdict> {
    let arguments = Arguments::parse(&SYNTAX, arguments)?;
    let changes = mend(&arguments.operand(0)?)?;
    let mut out = io::stdout().lock();
    if arguments.has("--json") {
        writeln!(out, "{}", to_json(&changes))?;
    } else {
        for change in &changes {
            writeln!(out, "{change}")?;
        }
        writeln!(out, "{} fields changed", changes.len())?;
    }
    Ok(Verdict::Yes)
}

/// Mends the file, and gives what was changed.
fn mend(path: &Path) -> Outcome<Vec<Change>> {
    let name = path.display();
    if !fs::metadata(path).about(&name)?.is_file() {
        return Err(trouble(format!("{name}: not a regular file")));
    }
    let mut bytes = fs::read(path).about(&name)?;
    let changes = recording::mend(&mut bytes).map_err(|refusal| {
        let number = refusal.number();
        trouble(format!(
            "{name}: refused {number}: a recording has 4 bytes or more"
        ))
    })?;
    if !changes.is_empty() {
        replace(path, &bytes).about(&name)?;
    }
    Ok(changes)
}

fn to_json(changes: &[Change]) -> Json {
    let changes = changes.iter().map(|change| {
        let (field, entry) = match change.field {
            Field::Count => ("count", None),
            Field::Offset(entry) => ("offset", Some(entry)),
            Field::Length(entry) => ("length", Some(entry)),
            Field::Direction(entry) => ("direction", Some(entry)),
        };
        Json::Object(vec![
            ("field", field.into()),
            ("entry", entry.into()),
            ("old", change.old.into()),
            ("new", change.new.into()),
        ])
    });
    Json::Object(vec![("changes", Json::List(changes.collect()))])
}
