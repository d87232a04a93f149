//! Tests the program's arguments and does nothing else. It links no library, so
//! `make bench` names a fault before it proves anything.

mod options;

use std::env;
use std::process;

use options::{Task, USAGE};

fn main() {
    match Task::of(env::args_os().skip(1)) {
        Ok(Task::Help) => eprintln!("{USAGE}"),
        Ok(_) => return,
        Err(message) => eprintln!("{message}"),
    }
    process::exit(1);
}
