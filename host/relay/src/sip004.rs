//! The 2017 edition of Shadowsocks (SIP004), for peers that have no other.
//!
//! Datagrams and streams are AES-GCM under a subkey that HKDF with SHA-1 derives of the
//! key and a salt. The edition has no time, no session and no memory of salts: what was
//! opened once opens again, and a host that minds keeps the salts itself. The plaintext
//! is handed on as it is. By the edition a client's begins with the target's SOCKS5
//! address: [`Address::as_bytes`](crate::Address::as_bytes) writes one.
//!
//! # A datagram
//!
//! ```
//! use relay::sip004::{self, Key, Method};
//!
//! // aes-192-gcm. A real key is random, and so is a salt.
//! let key = Key::new(Method::Aes192Gcm, &[0x4b; 24])?;
//! let mut datagram = [0; 1_500];
//! let length = sip004::seal_datagram(&key, &[0x51; 24], b"text", &mut datagram)?;
//! assert_eq!(length, 24 + 4 + 16);
//!
//! let mut plaintext = [0; 1_500];
//! let length = sip004::open_datagram(&key, &datagram[..length], &mut plaintext)?;
//! assert_eq!(&plaintext[..length], b"text");
//! # Ok::<(), relay::Refusal>(())
//! ```
//!
//! # A stream
//!
//! The salt goes first over the wire. The host carries it: it sends the one that it
//! begins with, and reads that of its peer.
//!
//! ```
//! use relay::sip004::{Key, Method, Receiver, Sender};
//! use relay::Step;
//!
//! let key = Key::new(Method::Aes256Gcm, &[0x4b; 32])?;
//! let salt = [0x51; 32];
//! let mut wire = salt.to_vec();
//! let mut sender = Sender::begin(&key, &salt)?;
//! for text in [&b"GET "[..], b"/"] {
//!     let mut chunk = [0; 64];
//!     let length = sender.seal_chunk(text, &mut chunk)?;
//!     wire.extend(&chunk[..length]);
//! }
//!
//! // A length and a payload by turns.
//! let (salt, mut rest) = wire.split_at(Method::Aes256Gcm.salt_len());
//! let mut receiver = Receiver::begin(&key, salt)?;
//! let (mut text, mut out) = (Vec::<u8>::new(), [0; 64]);
//! while !rest.is_empty() {
//!     let step = receiver.open_chunk(rest, &mut out)?;
//!     rest = &rest[step.used()..];
//!     if let Step::Payload { length, .. } = step {
//!         text.extend(&out[..length]);
//!     }
//! }
//! assert_eq!(text, b"GET /");
//! # Ok::<(), relay::Refusal>(())
//! ```

mod key;
mod method;
mod stream;

pub use key::Key;
pub use method::{Method, UnknownMethod};
pub use stream::{Receiver, Sender, Stream};

use crate::stream::TAG;
use crate::{answer, ffi, Refusal, MAX_DATAGRAM};

/// The longest payload of a chunk, in bytes.
pub const MAX_CHUNK: usize = 16_383;

/// Seals one datagram to the front of `out` and gives its length: 16 more than salt and
/// payload have.
///
/// The salt is to be random and new for each datagram under the key: two texts under
/// one salt can be read and forged. The payload may be empty.
///
/// # Errors
///
/// The first that applies: [`Settings`](Refusal::Settings) (the salt's length),
/// [`Length`](Refusal::Length) (over 65,507 bytes), [`Room`](Refusal::Room). A refusal
/// writes nothing.
pub fn seal_datagram(
    key: &Key,
    salt: &[u8],
    payload: &[u8],
    out: &mut [u8],
) -> Result<usize, Refusal> {
    ffi::sip004_datagram_seal(key, salt, payload, out).map(|answer| answer::length(answer[0]))
}

/// Opens one datagram to the front of `out` and gives the length of its plaintext;
/// bytes behind it are not written.
///
/// # Errors
///
/// The first that applies: [`Length`](Refusal::Length) (under salt and tag, or over
/// 65,507 bytes), [`Room`](Refusal::Room),
/// [`NotAuthentic`](Refusal::NotAuthentic). A refusal writes nothing.
pub fn open_datagram(key: &Key, datagram: &[u8], out: &mut [u8]) -> Result<usize, Refusal> {
    ffi::sip004_datagram_open(key, datagram, out).map(|answer| answer::length(answer[0]))
}

/// How long a datagram would be.
///
/// # Errors
///
/// [`Refusal::Length`] if it would be longer than 65,507 bytes.
pub fn sealed_datagram_len(method: Method, payload_len: usize) -> Result<usize, Refusal> {
    (method.salt_len() + TAG)
        .checked_add(payload_len)
        .filter(|&length| length <= MAX_DATAGRAM)
        .ok_or(Refusal::Length)
}
