//! Streams: so many at a time, each on a thread that takes one connection after the other.
//!
//! What a lane needs is made when it is started, so no number of connections takes more memory.
//! While all lanes are busy, connections wait with the system.

use std::io;
use std::net::{TcpListener, TcpStream};
use std::sync::{Arc, Mutex};
use std::time::Duration;

use relay::io::Buffers;

use super::{lock, rest, start};
use crate::random::Random;
use crate::status::Counters;

/// How long the head of a stream may take.
pub const HEAD_PATIENCE: Duration = Duration::from_secs(10);

/// The memory of one connection at a time.
pub struct Lane {
    /// Of what comes from the accepted connection.
    pub there: Buffers,
    /// Of what goes back to it.
    pub back: Buffers,
    pub random: Random,
}

impl Lane {
    fn new() -> io::Result<Self> {
        Ok(Self {
            there: Buffers::new(),
            back: Buffers::new(),
            random: Random::open()?,
        })
    }
}

/// What an end makes of connections.
pub trait Carries: Send + Sync + 'static {
    /// Carries a connection's streams to their end.
    fn carry(&self, accepted: &TcpStream, lane: &mut Lane) -> io::Result<()>;
}

/// Starts the lanes of a service.
pub fn start_lanes(
    listener: TcpListener,
    count: usize,
    counters: &Arc<Mutex<Counters>>,
    carries: impl Carries,
) -> io::Result<()> {
    let (listener, carries) = (Arc::new(listener), Arc::new(carries));
    for _ in 0..count {
        let (listener, carries) = (Arc::clone(&listener), Arc::clone(&carries));
        let (counters, mut lane) = (Arc::clone(counters), Lane::new()?);
        start("lane", move || loop {
            match listener.accept() {
                Ok((accepted, _)) => {
                    lock(&counters).streams += 1;
                    let prepared = accepted.set_nodelay(true);
                    let carried = prepared.and_then(|()| carries.carry(&accepted, &mut lane));
                    if let Err(error) = carried {
                        note(&mut lock(&counters), &error);
                    }
                }
                Err(_) => rest(),
            }
        })?;
    }
    Ok(())
}

/// Counts a stream that did not run to its end, if that was for the library or the box to say.
fn note(counters: &mut Counters, error: &io::Error) {
    let is_refused = relay::io::refusal(error).is_some();
    let is_forbidden = error.kind() == io::ErrorKind::PermissionDenied;
    counters.streams_refused += u64::from(is_refused);
    counters.not_allowed += u64::from(is_forbidden);
}
