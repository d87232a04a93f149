//! Streams of clients to their targets.

use std::io;
use std::net::TcpStream;
use std::sync::{Arc, Mutex};
use std::time::Duration;

use relay::io::{Incoming, Outgoing};
use relay::{sip004, Address, Clock, Key, Pool};

use super::clients::allowed;
use super::state::Keeper;
use crate::relaying::copy::{both, dial, end, open_all, seal_all, set_running, Activity};
use crate::relaying::lanes::{Carries, Lane, HEAD_PATIENCE};
use crate::relaying::lock;
use crate::relaying::source::{Deadline, Source};

/// What the streams of both editions are told.
pub struct Streams {
    pub clock: Arc<Clock>,
    /// The only target that may be asked for.
    pub target: Option<Address>,
    pub idle: Duration,
}

impl Streams {
    fn dial(&self, asked: Address) -> io::Result<TcpStream> {
        let asked = allowed(self.target.as_ref(), asked);
        let refused = || io::Error::from(io::ErrorKind::PermissionDenied);
        dial(&asked.ok_or_else(refused)?)
    }

    /// Carries both directions between a client and its target.
    fn carry(
        &self,
        client: &TcpStream,
        target: &TcpStream,
        incoming: &mut Incoming<Source>,
        outgoing: &mut Outgoing<&TcpStream>,
    ) -> io::Result<()> {
        set_running(client, self.idle)?;
        set_running(target, self.idle)?;
        let activity = Activity::new(self.idle);
        let there = || open_all(incoming, target, &activity).and_then(|()| end(target));
        let back = || seal_all(target, outgoing, &activity).and_then(|()| end(client));
        both(there, back, [client, target])
    }
}

/// Streams of Shadowsocks 2022.
pub struct ClientStreams {
    pub streams: Streams,
    pub key: Key,
    pub pool: Mutex<Pool>,
    pub keeper: Option<Mutex<Keeper>>,
    /// Before this clock nothing is accepted.
    pub from: u64,
}

impl ClientStreams {
    /// Keeps the pool over a restart, before anything of a stream is handed on.
    fn keep(&self) -> io::Result<()> {
        let Some(keeper) = &self.keeper else {
            return Ok(());
        };
        let pool = lock(&self.pool);
        lock(keeper).keep(self.streams.clock.now(), pool.words())
    }
}

impl Carries for ClientStreams {
    fn carry(&self, client: &TcpStream, lane: &mut Lane) -> io::Result<()> {
        let (key, clock) = (&self.key, &*self.streams.clock);
        if clock.now() < self.from {
            return Err(io::ErrorKind::ConnectionRefused.into());
        }
        let deadline = Deadline::new(HEAD_PATIENCE.min(self.streams.idle));
        let source = Source::new(client, &deadline);
        let (head, mut incoming) =
            Incoming::request(source, key, clock, &self.pool, &mut lane.there)?;
        deadline.meet();
        self.keep()?;
        let target = self.streams.dial(head.address.clone())?;
        let salt = lane.random.salt(key.method().salt_len())?;
        let mut outgoing =
            Outgoing::response(client, key, &salt, head.salt(), clock, &mut lane.back);
        self.streams
            .carry(client, &target, &mut incoming, &mut outgoing)
    }
}

/// Streams of the 2017 edition.
pub struct OlderStreams {
    pub streams: Streams,
    pub key: sip004::Key,
}

impl Carries for OlderStreams {
    fn carry(&self, client: &TcpStream, lane: &mut Lane) -> io::Result<()> {
        let deadline = Deadline::new(HEAD_PATIENCE.min(self.streams.idle));
        let source = Source::new(client, &deadline);
        let mut incoming = Incoming::sip004(source, &self.key, &mut lane.there);
        let asked = incoming.read_address()?;
        deadline.meet();
        let target = self.streams.dial(asked)?;
        let salt = lane.random.salt(self.key.method().salt_len())?;
        let mut outgoing = Outgoing::sip004(client, &self.key, &salt, &mut lane.back)?;
        self.streams
            .carry(client, &target, &mut incoming, &mut outgoing)
    }
}
