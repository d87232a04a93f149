//! `keygen`: makes a key.

use std::ffi::OsString;
use std::fs::OpenOptions;
use std::io::{self, Write};
use std::os::unix::fs::OpenOptionsExt;

use relay::base64;
use relay::settings::Method;

use crate::arguments::{Arguments, Syntax};
use crate::failure::{About, Outcome};
use crate::random::Random;
use crate::Verdict;

const SYNTAX: Syntax = Syntax {
    values: &["--method", "--out"],
    flags: &[],
    operands: &[],
};

/// Only its owner reads or writes a key file.
const OWNERS_ALONE: u32 = 0o600;

pub fn run(arguments: Vec<OsString>) -> Outcome<Verdict> {
    let arguments = Arguments::parse(&SYNTAX, arguments)?;
    let method: Method = arguments.wanted("--method")?;
    let mut key = vec![0; method.key_len()];
    let drawn = Random::open().and_then(|mut random| random.fill(&mut key));
    drawn.about("random numbers")?;
    let line = base64::encode(&key) + "\n";
    match arguments.path("--out")? {
        Some(path) => {
            let mut options = OpenOptions::new();
            let options = options.write(true).create_new(true).mode(OWNERS_ALONE);
            let mut file = options.open(&path).about(path.display())?;
            file.write_all(line.as_bytes()).about(path.display())?;
        }
        None => io::stdout().lock().write_all(line.as_bytes())?,
    }
    Ok(Verdict::Yes)
}
