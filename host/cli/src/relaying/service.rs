//! A port of both protocols whose traffic is relayed.

use std::io;
use std::net::{SocketAddr, TcpListener, UdpSocket};
use std::sync::{Arc, Mutex};
use std::time::Duration;

use relay::Clock;

use super::datagrams::{Datagrams, Ends};
use super::lanes::{start_lanes, Carries};
use crate::arguments::Arguments;
use crate::failure::{misuse, Outcome};
use crate::serve::recorder::Recorder;
use crate::status::Counters;

/// How many streams a port carries at a time, and how long one may stand still, in seconds.
const STREAMS: usize = 64;
const IDLE: u64 = 300;

/// How often a port is looked for that is free for both protocols, where any will do.
const TRIES: usize = 20;

/// What the options say of every port.
pub struct Limits {
    pub clock: Arc<Clock>,
    pub streams: usize,
    pub idle: Duration,
}

impl Limits {
    pub fn read(arguments: &Arguments) -> Outcome<Self> {
        let offset = arguments.read("--clock-offset")?.unwrap_or(0);
        let streams = arguments.read("--streams")?.unwrap_or(STREAMS);
        let idle = arguments.read("--idle")?.unwrap_or(IDLE);
        if idle == 0 || streams == 0 {
            return Err(misuse("--idle and --streams want 1 or more"));
        }
        Ok(Self {
            clock: Arc::new(Clock::with_offset(offset)),
            streams,
            idle: Duration::from_secs(idle),
        })
    }
}

/// A port that is bound.
pub struct Port {
    pub address: SocketAddr,
    listener: TcpListener,
    front: UdpSocket,
    pub counters: Arc<Mutex<Counters>>,
}

impl Port {
    /// Binds a socket of each protocol to one address.
    pub fn bind(address: SocketAddr) -> io::Result<Self> {
        let mut tries = 0;
        let (listener, front) = loop {
            let listener = TcpListener::bind(address)?;
            tries += 1;
            match UdpSocket::bind(listener.local_addr()?) {
                Ok(front) => break (listener, front),
                Err(_) if address.port() == 0 && tries < TRIES => {}
                Err(error) => return Err(error),
            }
        };
        Ok(Self {
            address: front.local_addr()?,
            listener,
            front,
            counters: Arc::default(),
        })
    }

    /// Starts the threads that relay what comes.
    pub fn relay(
        self,
        limits: &Limits,
        datagrams: Arc<Mutex<impl Ends>>,
        streams: impl Carries,
        recorder: Option<Arc<Recorder>>,
    ) -> io::Result<()> {
        start_lanes(self.listener, limits.streams, &self.counters, streams)?;
        let clock = Arc::clone(&limits.clock);
        Datagrams::start(self.front, clock, datagrams, self.counters, recorder)
    }
}
