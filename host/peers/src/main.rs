//! Exchanges with a peer that was written elsewhere: shadowsocks-libev.
//!
//! The peer stands between a plain end and a sealed end, which are both played here.
//! First it is the server: the sealed end is its client, and the plain end the target
//! that the client asks for. Then it is the tunnel: the plain end is its user, and the
//! sealed end the server that it sends to. What one end sends has to arrive at the other,
//! over TCP and over UDP, with each method of the 2017 edition.
//!
//! That judges the bytes that the library seals and opens, not what it refuses. The peer
//! refuses a salt that it saw before and closes on an empty chunk, so salts are random
//! and no chunk is empty.
//!
//! Everything is on the loopback interface, every socket has a timeout, and the peers
//! end with the program.

#![forbid(unsafe_code)]

mod datagrams;
mod peer;
mod ports;
mod random;
mod server;
mod streams;
mod tally;
mod tunnel;

use std::error::Error;
use std::process::ExitCode;
use std::time::{Duration, Instant};

use relay::base64;
use relay::sip004::{Key, Method};

use tally::Tally;

type Outcome<T> = Result<T, Box<dyn Error>>;

/// How long an end waits for the other, or for a peer to start.
const PATIENCE: Duration = Duration::from_secs(3);

fn main() -> ExitCode {
    let begun = Instant::now();
    match run() {
        Ok(tally) => {
            let seconds = begun.elapsed().as_secs_f64();
            println!("shadowsocks-libev and the library agree on {tally}, in {seconds:.1} s");
            ExitCode::SUCCESS
        }
        Err(error) => {
            eprintln!("peers: {error}");
            ExitCode::FAILURE
        }
    }
}

fn run() -> Outcome<Tally> {
    let mut tally = Tally::default();
    for method in Method::ALL {
        let secret = random::bytes(method.key_len())?;
        let key = Key::new(method, &secret)?;
        let secret = base64::encode_url(&secret);
        server::exchange(&key, &secret, &mut tally)?;
        tunnel::exchange(&key, &secret, &mut tally)?;
    }
    Ok(tally)
}
