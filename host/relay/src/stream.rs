//! Streams: one direction of a connection each.

mod request;
mod response;

pub use request::{RequestFront, RequestHeader};
pub use response::ResponseHeader;

use std::fmt;
use std::marker::PhantomData;

use crate::answer::{self, Answer};
use crate::ffi::{self, StreamWords};
use crate::secret;
use crate::{Method, Refusal, MAX_CHUNK};

/// The number of words that a stream is.
pub(crate) const STREAM_WORDS: usize = 8;

/// Places in the words.
pub(crate) const TURN: usize = 0;
pub(crate) const METHOD: usize = 1;
pub(crate) const COUNTER: usize = 2;
pub(crate) const SUBKEY: usize = 4;

/// Values of the turn that are looked at here.
pub(crate) const ENDED: u64 = 0;
const PAYLOAD_NEXT: u64 = 2;

/// Bytes of a sealed chunk besides its payload: a length with its tag, and a tag.
pub(crate) const CHUNK_OVERHEAD: usize = 2 + TAG + TAG;
pub(crate) const TAG: usize = 16;

/// The direction from a client to a server.
#[derive(Debug)]
pub enum Request {}

/// The direction from a server to a client.
#[derive(Debug)]
pub enum Response {}

/// The half of a stream that seals.
#[derive(Debug)]
pub enum Sealing {}

/// The half of a stream that opens.
#[derive(Debug)]
pub enum Opening {}

/// A stream from a client to a server, at the client (`Sealing`) or at the server
/// (`Opening`).
pub type RequestStream<Half> = Stream<Request, Half>;

/// A stream from a server to a client, at the server (`Sealing`) or at the client
/// (`Opening`).
pub type ResponseStream<Half> = Stream<Response, Half>;

/// One half of one direction of a stream, behind its head.
///
/// It is begun by sealing or opening a head: see [`RequestStream::seal`],
/// [`RequestStream::open`] with [`RequestStream::open_variable`],
/// [`ResponseStream::seal`] and [`ResponseStream::open`]. Chunks are the same in both
/// directions.
///
/// Each call takes the next counters of the stream. Under one salt a counter must
/// never be sealed twice, so a stream cannot be copied. Its subkey is not shown by
/// `Debug` and is overwritten, as well as can be, when the stream is dropped.
///
/// A half that opens does not seal:
///
/// ```compile_fail,E0599
/// use relay::stream::Opening;
///
/// fn answer(stream: &mut relay::RequestStream<Opening>, out: &mut [u8]) {
///     let _ = stream.seal_chunk(b"text", out);
/// }
/// ```
pub struct Stream<Direction, Half> {
    words: StreamWords,
    kind: PhantomData<(Direction, Half)>,
}

/// One step of the half that opens.
#[derive(Clone, Copy, Debug, PartialEq, Eq)]
pub enum Step {
    /// A length was opened. Nothing was written; a payload is next.
    Length {
        /// How many bytes were used.
        used: usize,
        /// The length of the payload that is next.
        length: usize,
    },
    /// A payload was opened to the front of the buffer. A length is next.
    Payload {
        /// How many bytes were used.
        used: usize,
        /// The length of the payload.
        length: usize,
    },
}

impl Step {
    /// How many bytes were used.
    pub fn used(self) -> usize {
        match self {
            Self::Length { used, .. } | Self::Payload { used, .. } => used,
        }
    }

    /// What the library answered to a stream that was at this turn.
    pub(crate) fn from_library(turn: u64, answer: &Answer) -> Self {
        let (used, length) = (answer::length(answer[0]), answer::length(answer[1]));
        if turn == PAYLOAD_NEXT {
            Self::Payload { used, length }
        } else {
            Self::Length { used, length }
        }
    }
}

impl<Direction, Half> Stream<Direction, Half> {
    /// The number of words that a stream is.
    pub const WORDS: usize = STREAM_WORDS;

    /// Whether the stream has ended because a tag or a variable header was wrong or a
    /// length was 0. It then refuses every call with [`Refusal::NotAuthentic`].
    pub fn is_ended(&self) -> bool {
        self.words[TURN] == ENDED
    }

    /// The stream's method. Words from elsewhere may have none.
    pub fn method(&self) -> Option<Method> {
        Method::from_number(self.words[METHOD])
    }

    /// The stream as words, to be stored: its turn (0 ended, 1 opens a length, 2
    /// opens a payload, 3 seals, 4 opens a variable header), method, counter, the
    /// length of the payload or variable header that is next, and its subkey in four
    /// words. They are as secret as the key.
    ///
    /// A host that restores older words of a stream that seals encrypts twice with
    /// one counter, which breaks the encryption.
    pub fn words(&self) -> &[u64; STREAM_WORDS] {
        &self.words
    }

    /// The stream that the words are. Any words may be given: with those of another
    /// half or of no stream, every call is [`Refusal::Settings`].
    pub fn from_words(words: &[u64; STREAM_WORDS]) -> Self {
        Self {
            words: *words,
            kind: PhantomData,
        }
    }
}

impl<Direction> Stream<Direction, Sealing> {
    /// Seals a chunk, a length with its payload, to the front of `out`, and gives
    /// the number of bytes written: 34 more than the payload has.
    ///
    /// The payload has 1 to 65,535 bytes.
    ///
    /// # Errors
    ///
    /// The first that applies: [`Settings`](Refusal::Settings) (words from elsewhere
    /// alone), [`Empty`](Refusal::Empty), [`NotAuthentic`](Refusal::NotAuthentic)
    /// (words of a stream that has ended), [`Counter`](Refusal::Counter),
    /// [`Length`](Refusal::Length), [`Room`](Refusal::Room). A refusal writes nothing
    /// and leaves the stream as it was.
    pub fn seal_chunk(&mut self, payload: &[u8], out: &mut [u8]) -> Result<usize, Refusal> {
        ffi::stream_seal_chunk(&mut self.words, payload, out)
            .map(|answer| answer::length(answer[0]))
    }

    /// How long a sealed chunk would be.
    ///
    /// # Errors
    ///
    /// [`Refusal::Empty`] if the payload has no bytes, [`Refusal::Length`] if it has
    /// more than 65,535.
    pub fn sealed_chunk_len(payload_len: usize) -> Result<usize, Refusal> {
        Ok(payload_fits(payload_len)? + CHUNK_OVERHEAD)
    }
}

impl<Direction> Stream<Direction, Opening> {
    /// Opens the next piece of the stream, a length or a payload by turns.
    ///
    /// `bytes` is what has come in and was not used yet; those behind the piece are
    /// not read. A payload goes to the front of `out`; bytes behind it are not
    /// written. A length writes nothing.
    ///
    /// # Errors
    ///
    /// The first that applies: [`Settings`](Refusal::Settings) (words from elsewhere
    /// alone), [`NotAuthentic`](Refusal::NotAuthentic) (the stream has ended),
    /// [`Counter`](Refusal::Counter), [`More`](Refusal::More),
    /// [`Room`](Refusal::Room), [`NotAuthentic`](Refusal::NotAuthentic) (a tag is
    /// wrong), [`Empty`](Refusal::Empty) (a length of 0). None writes to `out`. The
    /// last two end the stream; the others leave it as it was, so that the call can be
    /// made again with more bytes or room.
    pub fn open_chunk(&mut self, bytes: &[u8], out: &mut [u8]) -> Result<Step, Refusal> {
        let turn = self.words[TURN];
        ffi::stream_open_chunk(&mut self.words, bytes, out)
            .map(|answer| Step::from_library(turn, &answer))
    }
}

/// The length of a payload, if one may have it.
fn payload_fits(length: usize) -> Result<usize, Refusal> {
    match length {
        0 => Err(Refusal::Empty),
        1..=MAX_CHUNK => Ok(length),
        _ => Err(Refusal::Length),
    }
}

impl<Direction, Half> Drop for Stream<Direction, Half> {
    fn drop(&mut self) {
        secret::wipe(&mut self.words[SUBKEY..]);
    }
}

impl<Direction, Half> fmt::Debug for Stream<Direction, Half> {
    fn fmt(&self, f: &mut fmt::Formatter<'_>) -> fmt::Result {
        f.debug_struct("Stream")
            .field("turn", &self.words[TURN])
            .field("method", &self.method())
            .field("counter", &self.words[COUNTER])
            .finish_non_exhaustive()
    }
}
