//! The relay box and the branch box as they are run, on the loopback interface.
//!
//! `bhajnolith connect` stands on one side and `bhajnolith serve` on the other. The senders
//! before them, the targets behind them and the network between them are played here, and keep
//! books of what was sent, carried and received. Every wait has a deadline, and the programs end
//! with the test that started them.
//!
//! `BHAJNOLITH_BENCH_SECONDS` makes the bench's run shorter or longer than a minute.

#![forbid(unsafe_code)]

mod bench;
mod book;
mod garbage;
mod libev;
mod methods;
mod moves;
mod options;
mod place;
mod plain;
mod program;
mod proxy;
mod readings;
mod recordings;
mod refusals;
mod restart;
mod senders;
mod silent;
mod target;
mod wait;
mod weather;

// What other programs of the workspace have already.
#[allow(dead_code)]
#[path = "../../../soak/src/payload.rs"]
mod payload;
#[allow(dead_code)]
#[path = "../../../peers/src/peer.rs"]
mod peer;
#[allow(dead_code)]
#[path = "../../../peers/src/ports.rs"]
mod ports;
#[allow(dead_code)]
#[path = "../../../soak/src/random.rs"]
mod random;
#[allow(dead_code)]
#[path = "../../src/status.rs"]
mod status;

use std::error::Error;
use std::time::Duration;

type Outcome<T> = Result<T, Box<dyn Error>>;

/// How long anything may take that is to happen at once.
const PATIENCE: Duration = Duration::from_secs(5);
