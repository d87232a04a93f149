//! `settings`: shows, checks or writes a settings file.

use std::ffi::{OsStr, OsString};
use std::io::{self, Write};
use std::os::unix::ffi::OsStrExt;
use std::path::Path;

use relay::settings::{self, Method, Setting, Settings, MAX_FILE};
use relay::{Address, Refusal};

use crate::arguments::{Arguments, Syntax};
use crate::failure::{misuse, tell, trouble, About, Outcome};
use crate::files;
use crate::json::Json;
use crate::replace::replace;
use crate::Verdict;

const SHOW: Syntax = Syntax {
    values: &[],
    flags: &["--json"],
    operands: &["FILE"],
};

const CHECK: Syntax = Syntax { flags: &[], ..SHOW };

const WRITE: Syntax = Syntax {
    values: &[
        "--edition",
        "--method",
        "--retention",
        "--limit",
        "--target",
        "--other",
    ],
    ..CHECK
};

pub fn run(arguments: Vec<OsString>) -> Outcome<Verdict> {
    let mut arguments = arguments.into_iter();
    let action = arguments.next();
    match action.as_ref().and_then(|action| action.to_str()) {
        Some("show") => show(&Arguments::parse(&SHOW, arguments)?),
        Some("check") => check(&Arguments::parse(&CHECK, arguments)?),
        Some("write") => write(&Arguments::parse(&WRITE, arguments)?),
        _ => Err(misuse("show, check or write is missing")),
    }
}

/// Reads a file; the library's refusal of it is the inner error.
fn read(path: &Path) -> Outcome<Result<Settings, String>> {
    let bytes = files::read_front(path, MAX_FILE)?;
    Ok(settings::read(&bytes).map_err(|refusal| refused(path, refusal)))
}

fn refused(what: &Path, refusal: Refusal) -> String {
    let number = refusal.number();
    format!("{}: refused {number}: {refusal}", what.display())
}

fn show(arguments: &Arguments) -> Outcome<Verdict> {
    let settings = read(&arguments.operand(0)?)?.map_err(trouble)?;
    let mut out = io::stdout().lock();
    if arguments.has("--json") {
        writeln!(out, "{}", to_json(&settings))?;
        return Ok(Verdict::Yes);
    }
    writeln!(out, "edition {}", settings.edition)?;
    for (name, value) in [
        ("method", settings.method.map(|method| method.to_string())),
        (
            "retention",
            settings.retention.map(|seconds| seconds.to_string()),
        ),
        ("limit", settings.limit.map(|bytes| bytes.to_string())),
        ("target", settings.target.map(|target| target.to_string())),
    ] {
        if let Some(value) = value {
            writeln!(out, "{name} {value}")?;
        }
    }
    Ok(Verdict::Yes)
}

fn to_json(settings: &Settings) -> Json {
    let target = settings.target.as_ref().map(|target| target.to_string());
    Json::Object(vec![
        ("edition", u64::from(settings.edition).into()),
        ("method", settings.method.map(|method| method.name()).into()),
        ("retention", settings.retention.map(u64::from).into()),
        ("limit", settings.limit.into()),
        ("target", target.as_deref().into()),
    ])
}

fn check(arguments: &Arguments) -> Outcome<Verdict> {
    match read(&arguments.operand(0)?)? {
        Ok(_) => Ok(Verdict::Yes),
        Err(refusal) => {
            tell(format_args!("bhajnolith: settings: {refusal}"));
            Ok(Verdict::No)
        }
    }
}

fn write(arguments: &Arguments) -> Outcome<Verdict> {
    let path = arguments.operand(0)?;
    let edition: u16 = arguments.wanted("--edition")?;
    let target: Option<Address> = arguments.read("--target")?;
    let mut others = Vec::new();
    for other in arguments.all("--other") {
        others.push(read_other(other)?);
    }
    others.sort_by_key(|(number, _)| *number);
    // By rising numbers.
    let known = [
        arguments.read::<Method>("--method")?.map(Setting::Method),
        arguments.read("--retention")?.map(Setting::Retention),
        arguments.read("--limit")?.map(Setting::Limit),
        target.as_ref().map(Setting::Target),
    ];
    let mut settings: Vec<Setting> = known.into_iter().flatten().collect();
    settings.extend(others.iter().map(|(number, body)| Setting::Other {
        number: *number,
        body,
    }));
    let file = settings::write(edition, &settings).map_err(|refusal| {
        let what = faulty(&settings, refusal);
        trouble(format!("{what} refused {}: {refusal}", refusal.number()))
    })?;
    replace(&path, &file).about(path.display())?;
    Ok(Verdict::Yes)
}

/// What a refusal is about: the first setting that is refused alone, or all together.
fn faulty(settings: &[Setting], refusal: Refusal) -> String {
    let is_faulty = |setting: &&Setting| settings::write(0, &[**setting]) == Err(refusal);
    match settings.iter().find(is_faulty) {
        Some(setting) => format!("setting {}:", setting.number()),
        None => "the settings together:".to_string(),
    }
}

/// `NUMBER=FILE`: the number, and the file's bytes.
fn read_other(value: &OsStr) -> Outcome<(u16, Vec<u8>)> {
    let wrong = || misuse(format!("--other wants NUMBER=FILE, not {value:?}"));
    let bytes = value.as_bytes();
    let end = bytes
        .iter()
        .position(|byte| *byte == b'=')
        .ok_or_else(wrong)?;
    let number = std::str::from_utf8(&bytes[..end]).map_err(|_| wrong())?;
    let number = number.parse().map_err(|_| wrong())?;
    let path = Path::new(OsStr::from_bytes(&bytes[end + 1..]));
    Ok((number, files::read_front(path, MAX_FILE)?))
}
