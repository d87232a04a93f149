//! Tests the program's arguments and does nothing else. It links no library, so
//! `make run` names a fault before it proves anything.

mod options;

use std::env;
use std::process;

use options::{Options, USAGE};

fn main() {
    match Options::parse(env::args().skip(1)) {
        Ok(Some(_)) => return,
        Ok(None) => eprintln!("{USAGE}"),
        Err(message) => eprintln!("{message}\n\n{USAGE}"),
    }
    process::exit(1);
}
