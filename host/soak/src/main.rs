//! A soak of the library, as a relay uses it.
//!
//! 64 clients send 400 datagrams a second for an hour of simulated clock. Some are
//! late, overtaken, replayed, forged or stamped with a wrong time; sessions are
//! forgotten and begun again. The library opens all of them, and everything that it
//! answers is held to a model of the plain rules that shares nothing with it. A run
//! goes through all five methods, a fifth of it with each. Then every datagram of a
//! shorter run comes again at every later second until it is stale.
//!
//! The first disagreement ends the run with exit status 1.

#![forbid(unsafe_code)]

mod book;
mod client;
mod damage;
mod datagram;
mod disagreement;
mod events;
mod keys;
mod ledger;
mod meter;
mod network;
mod options;
mod payload;
mod random;
mod receiver;
mod replays;
mod replies;
mod report;
mod rules;
mod sealer;
mod soak;
mod tally;

use std::env;
use std::process::ExitCode;

use options::{Options, USAGE};
use soak::Soak;

/// The exit status for arguments that are not understood.
const MISUSED: u8 = 2;

fn main() -> ExitCode {
    let options = match Options::parse(env::args().skip(1)) {
        Ok(Some(options)) => options,
        Ok(None) => {
            println!("{USAGE}");
            return ExitCode::SUCCESS;
        }
        Err(message) => {
            eprintln!("soak: {message}\n\n{USAGE}");
            return ExitCode::from(MISUSED);
        }
    };
    match Soak::new(options).run(report::progress) {
        Ok(summary) => {
            report::summary(&summary);
            ExitCode::SUCCESS
        }
        Err(disagreement) => {
            report::disagreement(&disagreement);
            ExitCode::FAILURE
        }
    }
}
