//! Streams over anything that reads and writes.
//!
//! [`Incoming`] gives the payloads of a stream whose sealed bytes it reads from a source,
//! whatever pieces they come in; [`Outgoing`] seals what is written to it and writes it to
//! a sink. Source and sink are a connection's two directions, as `&TcpStream` is both. Each
//! direction is lent [`Buffers`], which are made once and used for one connection after the
//! other: nothing is allocated for a stream.
//!
//! ```
//! use std::io::{Read, Write};
//! use std::sync::Mutex;
//! use relay::io::{Buffers, Incoming, Outgoing};
//! use relay::{Address, Clock, Key, Method, Pool};
//!
//! let key = Key::new(Method::Aes256Gcm, &[0x4b; 32])?;
//! let clock = Clock::new();
//! let [mut one, mut other] = [Buffers::new(), Buffers::new()];
//!
//! // The client asks. Real salts are random.
//! let (salt, mut wire) = ([0x51; 32], Vec::new());
//! let target: Address = "example.com:80".parse()?;
//! let mut request =
//!     Outgoing::request(&mut wire, &key, &salt, &clock, &target, 0, b"GET ", &mut one)?;
//! request.write_all(b"/\r\n")?;
//!
//! // The server reads what it is asked for.
//! let pool = Mutex::new(Pool::new(key.method()));
//! let (head, mut request) = Incoming::request(&wire[..], &key, &clock, &pool, &mut other)?;
//! assert_eq!(head.address, target);
//! let mut text = String::new();
//! request.read_to_string(&mut text)?;
//! assert_eq!(text, "GET /\r\n");
//!
//! // It responds, and the client reads.
//! let mut wire = Vec::new();
//! let mut response =
//!     Outgoing::response(&mut wire, &key, &[0x52; 32], head.salt(), &clock, &mut other);
//! response.write_all(b"200 OK\r\n")?;
//! let mut response = Incoming::response(&wire[..], &key, &clock, &salt, &mut one);
//! text.clear();
//! response.read_to_string(&mut text)?;
//! assert_eq!(text, "200 OK\r\n");
//! # Ok::<(), Box<dyn std::error::Error>>(())
//! ```
//!
//! # Errors
//!
//! A [`Refusal`] is an error of kind [`InvalidData`](io::ErrorKind::InvalidData), from which
//! [`refusal`] gives it back. Errors of source and sink are passed on, but an
//! [`Interrupted`](io::ErrorKind::Interrupted) read or write is made again.

mod incoming;
mod opener;
mod outgoing;
mod sealer;

pub use incoming::{Incoming, RequestHead};
pub use outgoing::Outgoing;

use std::fmt;
use std::io;

use crate::stream::TAG;
use crate::{Refusal, MAX_CHUNK};

/// The longest salt, in bytes.
const LONGEST_SALT: usize = 32;

/// The most bytes that are sealed at once, or wanted at once to be opened: a response's head
/// with its salt and its first payload.
const SEALED: usize = LONGEST_SALT + (1 + 8 + LONGEST_SALT + 2 + TAG) + MAX_CHUNK + TAG;

/// The two buffers of one direction of a connection, one for sealed bytes and one for plain
/// ones: 131,177 bytes.
pub struct Buffers {
    sealed: Box<[u8]>,
    plain: Box<[u8]>,
}

impl Buffers {
    /// Makes the buffers, for one connection after the other.
    pub fn new() -> Self {
        Self {
            sealed: vec![0; SEALED].into(),
            plain: vec![0; MAX_CHUNK].into(),
        }
    }
}

impl Default for Buffers {
    fn default() -> Self {
        Self::new()
    }
}

/// Their bytes are not shown.
impl fmt::Debug for Buffers {
    fn fmt(&self, f: &mut fmt::Formatter<'_>) -> fmt::Result {
        f.debug_struct("Buffers").finish_non_exhaustive()
    }
}

/// The salt of a stream.
#[derive(Clone, Copy, Debug, Default, PartialEq, Eq, Hash)]
pub struct Salt {
    /// The salt, and zeros behind it.
    bytes: [u8; LONGEST_SALT],
    length: usize,
}

impl Salt {
    /// Bytes that are longer than any salt are kept as an empty one, which is as wrong.
    fn new(salt: &[u8]) -> Self {
        let mut kept = Self::default();
        if let Some(front) = kept.bytes.get_mut(..salt.len()) {
            front.copy_from_slice(salt);
            kept.length = salt.len();
        }
        kept
    }

    /// Its bytes.
    pub fn as_bytes(&self) -> &[u8] {
        &self.bytes[..self.length]
    }
}

impl From<Refusal> for io::Error {
    /// An error of kind [`InvalidData`](io::ErrorKind::InvalidData).
    fn from(refusal: Refusal) -> Self {
        Self::new(io::ErrorKind::InvalidData, refusal)
    }
}

/// The refusal that an error is, if it is one.
///
/// ```
/// use std::io;
/// use relay::Refusal;
///
/// let error = io::Error::from(Refusal::Time);
/// assert_eq!(relay::io::refusal(&error), Some(Refusal::Time));
/// assert_eq!(relay::io::refusal(&io::ErrorKind::InvalidData.into()), None);
/// ```
pub fn refusal(error: &io::Error) -> Option<Refusal> {
    error.get_ref()?.downcast_ref().copied()
}
