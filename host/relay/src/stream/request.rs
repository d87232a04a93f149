//! Heads of requests, which a client sends first.

use std::ops::Range;

use super::{Opening, Request, Sealing, Stream, TAG};
use crate::answer::{self, Answer};
use crate::{ffi, Address, Key, Method, Pool, Refusal, Target, MAX_CHUNK};

/// Type, timestamp and length.
const FIXED_HEADER: usize = 1 + 8 + 2;

/// The bytes of the padding's length.
const PADDING_LENGTH: usize = 2;

/// What the front of a request says: its salt and its fixed header.
#[derive(Clone, Copy, Debug, PartialEq, Eq, Hash)]
pub struct RequestFront {
    /// How many bytes the front has; the variable header comes behind it.
    pub used: usize,
    /// The length of the variable header, without its tag.
    pub length: usize,
    /// The sender's clock.
    pub timestamp: u64,
}

/// The variable header of an opened request. Places are those in the buffer that it
/// was opened to.
#[derive(Clone, Debug, PartialEq, Eq, Hash)]
pub struct RequestHeader {
    /// Where the stream is to go.
    pub target: Target,
    /// The target's port.
    pub port: u16,
    /// How many bytes of padding there were.
    pub padding: u16,
    /// The place of the first payload, which may be empty.
    pub payload: Range<usize>,
    /// How many bytes were used, behind the front; chunks come behind them.
    pub used: usize,
}

impl RequestHeader {
    /// The first payload, out of the buffer that the request was opened to.
    ///
    /// # Panics
    ///
    /// If `plaintext` is shorter than what was opened.
    pub fn payload<'a>(&self, plaintext: &'a [u8]) -> &'a [u8] {
        &plaintext[self.payload.clone()]
    }

    /// The target's name, where it is one.
    ///
    /// # Panics
    ///
    /// If it is one and `plaintext` is shorter than what was opened.
    pub fn name<'a>(&self, plaintext: &'a [u8]) -> Option<&'a [u8]> {
        self.target.name(plaintext)
    }

    /// The target with its port, as it was sealed.
    ///
    /// # Panics
    ///
    /// If the target is a name and `plaintext` is not what was opened.
    pub fn address(&self, plaintext: &[u8]) -> Address {
        self.target.address(self.port, plaintext)
    }

    fn from_library(answer: &Answer) -> Self {
        let [kind, first, second, port, padding, payload, used, length, _] = *answer;
        Self {
            target: Target::from_library(kind, first, second),
            port: answer::half_word(port),
            padding: answer::half_word(padding),
            payload: answer::length(payload)..answer::length(length),
            used: answer::length(used),
        }
    }
}

impl Stream<Request, Sealing> {
    /// Seals a request's head, with the first payload, to the front of `out`. Gives
    /// the stream behind it and the head's length.
    ///
    /// The salt is to be random and new for each stream; the client keeps it, as the
    /// response names it. `clock` is in seconds since 1970. There are 0 to 900 bytes
    /// of padding, and not 0 where the payload is empty.
    ///
    /// # Errors
    ///
    /// The first that applies: [`Settings`](Refusal::Settings) (the salt's length),
    /// [`Argument`](Refusal::Argument) (padding), [`Length`](Refusal::Length)
    /// (address, padding and payload over 65,533 bytes), [`Room`](Refusal::Room). A
    /// refusal writes nothing.
    pub fn seal(
        key: &Key,
        salt: &[u8],
        clock: u64,
        address: &Address,
        padding: usize,
        payload: &[u8],
        out: &mut [u8],
    ) -> Result<(Self, usize), Refusal> {
        let address = address.as_bytes();
        let (words, answer) =
            ffi::stream_seal_request(key, salt, clock, address, padding, payload, out)?;
        Ok((Self::from_words(&words), answer::length(answer[0])))
    }

    /// How long a head would be.
    ///
    /// # Errors
    ///
    /// [`Refusal::Length`] if address, padding and payload are too long for it.
    pub fn sealed_len(
        method: Method,
        address: &Address,
        padding: usize,
        payload_len: usize,
    ) -> Result<usize, Refusal> {
        let variable = (address.as_bytes().len() + PADDING_LENGTH)
            .checked_add(padding)
            .and_then(|length| length.checked_add(payload_len))
            .filter(|&length| length <= MAX_CHUNK)
            .ok_or(Refusal::Length)?;
        Ok(method.salt_len() + FIXED_HEADER + TAG + variable + TAG)
    }
}

impl Stream<Request, Opening> {
    /// Opens the front of a request's head, for a server: its salt and its fixed
    /// header. Gives the stream, which has the variable header next
    /// ([`open_variable`](Self::open_variable)), and what the front says.
    ///
    /// `bytes` is what has come in so far; those behind the front are not read. Its
    /// first bytes, as many as [`salt_len`](Method::salt_len), are the salt that the
    /// response names. The salt enters the pool exactly when the front is accepted,
    /// and stays there, whatever the variable header turns out to be: the same bytes
    /// are then [`Replay`](Refusal::Replay). [`Incoming`](crate::io::Incoming::request)
    /// keeps track of that.
    ///
    /// # Errors
    ///
    /// The first that applies: [`Settings`](Refusal::Settings) (another method's
    /// pool), [`More`](Refusal::More), [`NotAuthentic`](Refusal::NotAuthentic),
    /// [`Type`](Refusal::Type), [`Time`](Refusal::Time), [`Replay`](Refusal::Replay),
    /// [`Full`](Refusal::Full). All leave the pool as it was.
    pub fn open(
        key: &Key,
        clock: u64,
        bytes: &[u8],
        pool: &mut Pool,
    ) -> Result<(Self, RequestFront), Refusal> {
        let (words, answer) = ffi::stream_open_request(key, clock, bytes, pool.words_mut())?;
        let front = RequestFront {
            used: answer::length(answer[0]),
            length: answer::length(answer[1]),
            timestamp: answer[2],
        };
        Ok((Self::from_words(&words), front))
    }

    /// Opens the variable header, behind the front. The stream is then at a length.
    ///
    /// `bytes` is what has come in behind the front; those behind the variable header
    /// are not read. It goes to the front of `out`; bytes behind it are not written.
    ///
    /// # Errors
    ///
    /// The first that applies: [`Settings`](Refusal::Settings) (a stream at another
    /// turn), [`NotAuthentic`](Refusal::NotAuthentic) (it has ended),
    /// [`More`](Refusal::More), [`Room`](Refusal::Room),
    /// [`NotAuthentic`](Refusal::NotAuthentic) (the tag is wrong),
    /// [`Malformed`](Refusal::Malformed), which sets the bytes of the variable header
    /// to zero. The last two end the stream; the others leave it as it was, so that
    /// the call can be made again with more bytes or room.
    pub fn open_variable(
        &mut self,
        bytes: &[u8],
        out: &mut [u8],
    ) -> Result<RequestHeader, Refusal> {
        ffi::stream_open_variable(&mut self.words, bytes, out)
            .map(|answer| RequestHeader::from_library(&answer))
    }
}
