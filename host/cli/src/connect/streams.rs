//! Local streams to the target through the relay.

use std::io::{self, Read, Write};
use std::net::TcpStream;
use std::sync::Arc;
use std::time::Duration;

use relay::io::{Incoming, Outgoing};
use relay::{sip004, Address, Clock, Key};

use crate::random::Random;
use crate::relaying::copy::{both, dial, end, open_all, seal_all, set_running, Activity};
use crate::relaying::datagrams::is_timeout;
use crate::relaying::lanes::{Carries, Lane};

/// How long a user may take to send something that goes with the head. A head without it is
/// padded, as some users wait for the target to speak first.
const FIRST_PATIENCE: Duration = Duration::from_millis(30);

/// The longest first payload. With an address it fits the first chunk of either edition.
const LONGEST_FIRST: usize = 8_192;

/// The longest padding of a head.
const LONGEST_PADDING: u64 = 900;

/// What the streams of both editions are told.
pub struct Streams {
    pub server: Address,
    pub target: Address,
    pub idle: Duration,
}

impl Streams {
    /// Carries both directions between a user and the relay.
    fn carry(
        &self,
        user: &TcpStream,
        server: &TcpStream,
        incoming: &mut Incoming<&TcpStream>,
        outgoing: &mut Outgoing<&TcpStream>,
    ) -> io::Result<()> {
        set_running(user, self.idle)?;
        set_running(server, self.idle)?;
        let activity = Activity::new(self.idle);
        let there = || seal_all(user, outgoing, &activity).and_then(|()| end(server));
        let back = || open_all(incoming, user, &activity).and_then(|()| end(user));
        both(there, back, [user, server])
    }
}

/// What a user sends first, if it does so soon.
fn read_first<'a>(mut user: &TcpStream, buffer: &'a mut [u8]) -> io::Result<&'a [u8]> {
    user.set_read_timeout(Some(FIRST_PATIENCE))?;
    match user.read(buffer) {
        Err(error) if is_timeout(&error) => Ok(&[]),
        // A signal came: what the user sends goes behind the head.
        Err(error) if error.kind() == io::ErrorKind::Interrupted => Ok(&[]),
        read => Ok(&buffer[..read?]),
    }
}

/// Padding for a head: none where there is a payload, else 1 to 900 bytes.
fn padding(random: &mut Random, payload: usize) -> io::Result<usize> {
    match payload {
        0 => Ok((1 + random.word()? % LONGEST_PADDING) as usize),
        _ => Ok(0),
    }
}

/// Streams of Shadowsocks 2022.
pub struct UserStreams {
    pub streams: Streams,
    pub key: Key,
    pub clock: Arc<Clock>,
}

impl Carries for UserStreams {
    fn carry(&self, user: &TcpStream, lane: &mut Lane) -> io::Result<()> {
        let (key, clock) = (&self.key, &*self.clock);
        let server = dial(&self.streams.server)?;
        let mut first = [0; LONGEST_FIRST];
        let payload = read_first(user, &mut first)?;
        let padding = padding(&mut lane.random, payload.len())?;
        let salt = lane.random.salt(key.method().salt_len())?;
        let (target, there) = (&self.streams.target, &mut lane.there);
        let mut outgoing =
            Outgoing::request(&server, key, &salt, clock, target, padding, payload, there)?;
        let mut incoming = Incoming::response(&server, key, clock, &salt, &mut lane.back);
        self.streams
            .carry(user, &server, &mut incoming, &mut outgoing)
    }
}

/// Streams of the 2017 edition.
pub struct OlderStreams {
    pub streams: Streams,
    pub key: sip004::Key,
}

impl Carries for OlderStreams {
    fn carry(&self, user: &TcpStream, lane: &mut Lane) -> io::Result<()> {
        let server = dial(&self.streams.server)?;
        let mut first = [0; LONGEST_FIRST];
        let payload = read_first(user, &mut first)?;
        let text = [self.streams.target.as_bytes(), payload].concat();
        let salt = lane.random.salt(self.key.method().salt_len())?;
        let mut outgoing = Outgoing::sip004(&server, &self.key, &salt, &mut lane.there)?;
        outgoing.write_all(&text)?;
        let mut incoming = Incoming::sip004(&server, &self.key, &mut lane.back);
        self.streams
            .carry(user, &server, &mut incoming, &mut outgoing)
    }
}
