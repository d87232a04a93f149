//! Streams of every kind as bytes on the wire, and readers and writers that do what those of
//! the system may do.

use std::collections::VecDeque;
use std::io::{self, Read, Write};
use std::sync::Mutex;

use relay::io::{Buffers, Incoming, Outgoing};
use relay::{sip004, Clock, Method, Pool, Refusal, RequestStream, ResponseStream};

use crate::common::{key, salt, short_address, OTHER_SALT};

/// A clock that stands still, as it is held far in the future.
pub const STILL: u64 = 100_000_000_000;

pub fn still() -> Clock {
    let clock = Clock::new();
    clock.hold(STILL);
    clock
}

/// What kinds of streams there are.
#[derive(Clone, Copy, Debug)]
pub enum Kind {
    Request(Method),
    Response(Method),
    Sip004(sip004::Method),
}

impl Kind {
    pub fn all() -> impl Iterator<Item = Self> {
        let requests = Method::ALL.into_iter().map(Self::Request);
        let responses = Method::ALL.into_iter().map(Self::Response);
        let older = sip004::Method::ALL.into_iter().map(Self::Sip004);
        requests.chain(responses).chain(older)
    }

    pub fn longest(self) -> usize {
        match self {
            Self::Sip004(_) => sip004::MAX_CHUNK,
            _ => relay::MAX_CHUNK,
        }
    }
}

pub fn older_key(method: sip004::Method) -> sip004::Key {
    sip004::Key::new(method, &OTHER_SALT[..method.key_len()]).unwrap()
}

pub fn older_salt(method: sip004::Method) -> &'static [u8] {
    &OTHER_SALT[..method.salt_len()]
}

pub fn other_salt(method: Method) -> &'static [u8] {
    &OTHER_SALT[..method.salt_len()]
}

/// A stream on the wire.
#[derive(Default)]
pub struct Wire {
    pub bytes: Vec<u8>,
    /// The places at which it may end, each with the length of the text up to there.
    pub ends: Vec<(usize, usize)>,
}

impl Wire {
    fn add(&mut self, bytes: &[u8], payload_len: usize) {
        let text = self.ends.last().map_or(0, |(_, text)| *text);
        self.bytes.extend_from_slice(bytes);
        self.ends.push((self.bytes.len(), text + payload_len));
    }

    fn add_chunks(
        &mut self,
        payloads: &[Vec<u8>],
        mut seal: impl FnMut(&[u8], &mut [u8]) -> Result<usize, Refusal>,
    ) {
        let mut out = vec![0; 70_000];
        for payload in payloads {
            let length = seal(payload, &mut out).unwrap();
            self.add(&out[..length], payload.len());
        }
    }
}

/// The wire of payloads, sealed by the library's own calls. There is at least one payload.
pub fn sealed(kind: Kind, payloads: &[Vec<u8>]) -> Wire {
    let (mut wire, mut out) = (Wire::default(), vec![0; 70_000]);
    let (first, rest) = payloads.split_first().unwrap();
    match kind {
        Kind::Request(method) => {
            let (key, salt, target) = (key(method), salt(method), short_address());
            let head = RequestStream::seal(&key, salt, STILL, &target, 1, first, &mut out);
            let (mut stream, length) = head.unwrap();
            wire.add(&out[..length], first.len());
            wire.add_chunks(rest, |payload, out| stream.seal_chunk(payload, out));
        }
        Kind::Response(method) => {
            let (key, own) = (key(method), other_salt(method));
            let head = ResponseStream::seal(&key, own, salt(method), STILL, first, &mut out);
            let (mut stream, length) = head.unwrap();
            wire.add(&[], 0);
            wire.add(&out[..length], first.len());
            wire.add_chunks(rest, |payload, out| stream.seal_chunk(payload, out));
        }
        Kind::Sip004(method) => {
            let salt = older_salt(method);
            let mut stream = sip004::Sender::begin(&older_key(method), salt).unwrap();
            wire.add(&[], 0);
            wire.add(salt, 0);
            wire.add_chunks(payloads, |payload, out| stream.seal_chunk(payload, out));
        }
    }
    wire
}

/// Writes payloads, each by a call of its own, and gives what was sent.
pub fn written(kind: Kind, payloads: &[Vec<u8>], sink: impl Write) -> io::Result<()> {
    with_outgoing(kind, payloads, sink, |outgoing, rest| {
        for payload in rest {
            assert_eq!(outgoing.write(payload)?, payload.len());
        }
        outgoing.flush()
    })
}

/// Lends a stream that seals, with the payloads that are still to be written: a request's
/// first one goes with its head.
pub fn with_outgoing<W: Write, T>(
    kind: Kind,
    payloads: &[Vec<u8>],
    sink: W,
    act: impl FnOnce(&mut Outgoing<W>, &[Vec<u8>]) -> io::Result<T>,
) -> io::Result<T> {
    let (clock, mut buffers) = (still(), Buffers::new());
    match kind {
        Kind::Request(method) => {
            let (key, target) = (key(method), short_address());
            let (first, rest) = payloads.split_first().unwrap();
            let (salt, buffers) = (salt(method), &mut buffers);
            let outgoing = Outgoing::request(sink, &key, salt, &clock, &target, 1, first, buffers);
            act(&mut outgoing?, rest)
        }
        Kind::Response(method) => {
            let (key, own) = (key(method), other_salt(method));
            let mut outgoing =
                Outgoing::response(sink, &key, own, salt(method), &clock, &mut buffers);
            act(&mut outgoing, payloads)
        }
        Kind::Sip004(method) => {
            let (key, salt) = (older_key(method), older_salt(method));
            act(
                &mut Outgoing::sip004(sink, &key, salt, &mut buffers)?,
                payloads,
            )
        }
    }
}

/// Reads a stream to its end: the text that it gave, and how it ended.
pub fn read(kind: Kind, source: impl Read) -> (Vec<u8>, io::Result<()>) {
    let mut text = Vec::new();
    let ended = with_incoming(kind, source, |incoming| {
        incoming.read_to_end(&mut text).map(|_| ())
    });
    (text, ended)
}

/// Lends a stream that opens.
pub fn with_incoming<R: Read, T>(
    kind: Kind,
    source: R,
    act: impl FnOnce(&mut Incoming<R>) -> io::Result<T>,
) -> io::Result<T> {
    let (clock, mut buffers) = (still(), Buffers::new());
    match kind {
        Kind::Request(method) => {
            let (key, pool) = (key(method), Mutex::new(Pool::new(method)));
            let (head, mut incoming) =
                Incoming::request(source, &key, &clock, &pool, &mut buffers)?;
            assert_eq!((head.address.clone(), head.padding), (short_address(), 1));
            assert_eq!((head.salt(), head.timestamp), (salt(method), STILL));
            act(&mut incoming)
        }
        Kind::Response(method) => {
            let key = key(method);
            act(&mut Incoming::response(
                source,
                &key,
                &clock,
                salt(method),
                &mut buffers,
            ))
        }
        Kind::Sip004(method) => {
            let key = older_key(method);
            act(&mut Incoming::sip004(source, &key, &mut buffers))
        }
    }
}

/// A source that gives few bytes at a time, and before each an error of a kind.
pub struct Slow<'a> {
    bytes: &'a [u8],
    most: usize,
    error: Option<io::ErrorKind>,
    is_next: bool,
}

impl<'a> Slow<'a> {
    pub fn new(bytes: &'a [u8], most: usize, error: Option<io::ErrorKind>) -> Self {
        Self {
            bytes,
            most,
            error,
            is_next: false,
        }
    }
}

impl Read for Slow<'_> {
    fn read(&mut self, out: &mut [u8]) -> io::Result<usize> {
        self.is_next = !self.is_next;
        if let Some(error) = self.error.filter(|_| self.is_next) {
            return Err(error.into());
        }
        let most = self.most.min(out.len());
        self.bytes.read(&mut out[..most])
    }
}

/// A sink that takes so many bytes, few at a time, and then fails.
#[derive(Default)]
pub struct Narrow {
    pub taken: Vec<u8>,
    pub room: usize,
    /// How the first calls end instead.
    pub errors: VecDeque<io::ErrorKind>,
}

impl Write for &mut Narrow {
    fn write(&mut self, bytes: &[u8]) -> io::Result<usize> {
        if let Some(error) = self.errors.pop_front() {
            return Err(error.into());
        }
        if self.taken.len() == self.room {
            return Err(io::ErrorKind::ConnectionReset.into());
        }
        let length = bytes.len().min(self.room - self.taken.len()).min(1_000);
        self.taken.extend_from_slice(&bytes[..length]);
        Ok(length)
    }

    fn flush(&mut self) -> io::Result<()> {
        Ok(())
    }
}
