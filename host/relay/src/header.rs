//! The headers of opened datagrams.

use std::ops::Range;

use crate::answer::{self, Answer};
use crate::{Address, Target};

/// The header of an opened datagram. Places are those in the plaintext, that is in
/// the buffer that the datagram was opened to; with ChaCha it begins with the session ID.
#[derive(Clone, Debug, PartialEq, Eq, Hash)]
pub struct Header {
    /// From a client, where the payload is to go; from a server, where it is from.
    pub target: Target,
    /// The target's port.
    pub port: u16,
    /// The sender's session ID.
    pub session_id: u64,
    /// The packet ID, which counts the datagrams of the session.
    pub packet_id: u64,
    /// The sender's clock, in seconds since 1970.
    pub timestamp: u64,
    /// How many bytes of padding there were.
    pub padding: u16,
    /// The place of the payload, which may be empty. It ends with the plaintext.
    pub payload: Range<usize>,
}

impl Header {
    /// The payload, out of the buffer that the datagram was opened to.
    ///
    /// # Panics
    ///
    /// If `plaintext` is shorter than what was opened.
    pub fn payload<'a>(&self, plaintext: &'a [u8]) -> &'a [u8] {
        &plaintext[self.payload.clone()]
    }

    /// The target's name, where it is one.
    ///
    /// # Panics
    ///
    /// If it is one and `plaintext` is shorter than what was opened.
    pub fn name<'a>(&self, plaintext: &'a [u8]) -> Option<&'a [u8]> {
        self.target.name(plaintext)
    }

    /// The target with its port, as it was sealed.
    ///
    /// # Panics
    ///
    /// If the target is a name and `plaintext` is not what was opened.
    pub fn address(&self, plaintext: &[u8]) -> Address {
        self.target.address(self.port, plaintext)
    }

    /// The header of an opened datagram's answer, and the length of its plaintext.
    pub(crate) fn from_library(answer: &Answer, plaintext_len: usize) -> Self {
        let [kind, first, second, port, session_id, packet_id, timestamp, padding, payload] =
            *answer;
        Self {
            target: Target::from_library(kind, first, second),
            port: answer::half_word(port),
            session_id,
            packet_id,
            timestamp,
            padding: answer::half_word(padding),
            payload: answer::length(payload)..plaintext_len,
        }
    }
}
