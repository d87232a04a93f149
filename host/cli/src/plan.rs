//! `plan`: cuts a long report into datagrams, or tells whether it is cut well.

use std::ffi::OsString;
use std::io::{self, Write};
use std::path::Path;

use relay::settings;
use relay::{Address, Method, Piece, Plan, Refusal};

use crate::arguments::{Arguments, Syntax};
use crate::failure::{misuse, trouble, Failure, Outcome};
use crate::files;
use crate::json::Json;
use crate::Verdict;

const SYNTAX: Syntax = Syntax {
    values: &["--method", "--target", "--limit", "--length", "--check"],
    flags: &["--json"],
    operands: &[],
};

/// The most datagrams of a plan here: 16 MiB of words, and a gigabyte or so of a report.
const MOST_DATAGRAMS: usize = 1_048_576;

/// The words of a datagram: the payload's length, and the padding.
const WORDS: usize = 2;

/// The longest text of a plan: two numbers of 20 digits, a space and a line's end each time.
const LONGEST_TEXT: usize = MOST_DATAGRAMS * 42;

/// What is planned.
struct Report {
    method: Method,
    target: Address,
    limit: usize,
    length: usize,
}

pub fn run(arguments: Vec<OsString>) -> Outcome<Verdict> {
    let arguments = Arguments::parse(&SYNTAX, arguments)?;
    let report = Report::from_arguments(&arguments)?;
    let mut out = io::stdout().lock();
    if let Some(file) = arguments.path("--check")? {
        let is_good = report.check(&read_words(&file)?)?;
        let written = match arguments.has("--json") {
            true => writeln!(out, "{}", Json::Object(vec![("good", Json::Bool(is_good))])),
            false => Ok(()),
        };
        return Verdict::from(is_good).once(written);
    }
    let mut words = vec![0; WORDS * report.length.min(MOST_DATAGRAMS)];
    let plan = report.make(&mut words)?;
    if arguments.has("--json") {
        writeln!(out, "{}", to_json(&plan))?;
    } else {
        let mut out = io::BufWriter::new(out);
        for Piece { length, padding } in plan {
            writeln!(out, "{length} {padding}")?;
        }
        out.flush()?;
    }
    Ok(Verdict::Yes)
}

impl Report {
    fn from_arguments(arguments: &Arguments) -> Outcome<Self> {
        let method = match arguments.wanted("--method")? {
            settings::Method::Sip022(method) => method,
            settings::Method::Sip004(method) => {
                let said = format!("{method} is of the 2017 edition, which has no plans");
                return Err(misuse(said));
            }
        };
        Ok(Self {
            method,
            target: arguments.wanted("--target")?,
            limit: arguments.wanted("--limit")?,
            length: arguments.wanted("--length")?,
        })
    }

    fn make<'a>(&self, words: &'a mut [u64]) -> Outcome<Plan<'a>> {
        Plan::make(self.method, &self.target, self.limit, self.length, words).map_err(refused)
    }

    fn check(&self, words: &[u64]) -> Outcome<bool> {
        let plan = Plan::check(self.method, &self.target, self.limit, self.length, words);
        plan.map(|good| good.is_some()).map_err(refused)
    }
}

fn refused(refusal: Refusal) -> Failure {
    let number = refusal.number();
    let why = match refusal {
        Refusal::Argument => "a limit over 65,507, or without room for a byte of the report".into(),
        Refusal::Room => format!("more than {MOST_DATAGRAMS} datagrams"),
        other => other.to_string(),
    };
    trouble(format!("refused {number}: {why}"))
}

/// The words of a plan's text, as this command prints it.
fn read_words(path: &Path) -> Outcome<Vec<u64>> {
    let about = |why: &str| trouble(format!("{}: {why}", path.display()));
    let bytes = files::read_front(path, LONGEST_TEXT)?;
    if bytes.len() > LONGEST_TEXT {
        return Err(about("too long for a plan"));
    }
    let text = std::str::from_utf8(&bytes).map_err(|_| about("no text"))?;
    let mut words = Vec::new();
    for (index, line) in text.lines().enumerate() {
        let piece = read_piece(line);
        words.extend(piece.ok_or_else(|| {
            let place = index + 1;
            about(&format!("line {place} is no length and padding"))
        })?);
    }
    Ok(words)
}

fn read_piece(line: &str) -> Option<[u64; WORDS]> {
    let (length, padding) = line.split_once(' ')?;
    Some([length.parse().ok()?, padding.parse().ok()?])
}

fn to_json(plan: &Plan) -> Json {
    let pieces = plan.pieces().map(|Piece { length, padding }| {
        Json::Object(vec![("length", length.into()), ("padding", padding.into())])
    });
    Json::Object(vec![
        ("datagrams", plan.datagrams().into()),
        ("pieces", Json::List(pieces.collect())),
    ])
}

#[cfg(test)]
mod tests {
    use super::read_piece;

    #[test]
    fn a_line_is_two_numbers() {
        assert_eq!(read_piece("1450 0"), Some([1_450, 0]));
        assert_eq!(read_piece("0 18446744073709551615"), Some([0, u64::MAX]));
        for line in [
            "",
            "1",
            "1 ",
            "1 2 3",
            "1  2",
            "-1 0",
            "a 0",
            "1 18446744073709551616",
        ] {
            assert_eq!(read_piece(line), None, "{line:?}");
        }
    }
}
