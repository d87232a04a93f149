//! Streams of the 2017 edition: one direction of a connection each.

use std::fmt;
use std::marker::PhantomData;

use super::{Key, Method, MAX_CHUNK};
use crate::ffi::{self, StreamWords};
use crate::stream::{Opening, Sealing, Step};
use crate::stream::{CHUNK_OVERHEAD, COUNTER, ENDED, METHOD, STREAM_WORDS, SUBKEY, TURN};
use crate::{answer, secret, Refusal};

/// The half of a stream that seals.
pub type Sender = Stream<Sealing>;

/// The half of a stream that opens.
pub type Receiver = Stream<Opening>;

/// One half of one direction of a stream of the 2017 edition, behind its salt. Both
/// directions are alike.
///
/// Each call takes the next counters of the stream, from 0 on. Under one salt a counter
/// must never be sealed twice, so a stream cannot be copied. Its subkey is not shown by
/// `Debug` and is overwritten, as well as can be, when the stream is dropped.
///
/// A half that opens does not seal:
///
/// ```compile_fail,E0599
/// fn answer(stream: &mut relay::sip004::Receiver, out: &mut [u8]) {
///     let _ = stream.seal_chunk(b"text", out);
/// }
/// ```
pub struct Stream<Half> {
    words: StreamWords,
    kind: PhantomData<Half>,
}

impl<Half> Stream<Half> {
    /// The number of words that a stream is.
    pub const WORDS: usize = STREAM_WORDS;

    /// Whether the stream has ended because a tag was wrong or a length was above
    /// 16,383. It then refuses every call with [`Refusal::NotAuthentic`].
    pub fn is_ended(&self) -> bool {
        self.words[TURN] == ENDED
    }

    /// The stream's method. Words from elsewhere may have none.
    pub fn method(&self) -> Option<Method> {
        Method::from_number(self.words[METHOD])
    }

    /// The stream as words, to be stored: its turn (0 ended, 1 opens a length, 2
    /// opens a payload, 3 seals), method, counter, the length of the payload that is
    /// next, and its subkey in four words. They are as secret as the key.
    ///
    /// A host that restores older words of a stream that seals encrypts twice with
    /// one counter, which breaks the encryption.
    pub fn words(&self) -> &[u64; STREAM_WORDS] {
        &self.words
    }

    /// The stream that the words are. Any words may be given: with those of another
    /// half, of Shadowsocks 2022 or of no stream, every call is [`Refusal::Settings`].
    pub fn from_words(words: &[u64; STREAM_WORDS]) -> Self {
        Self {
            words: *words,
            kind: PhantomData,
        }
    }
}

impl Stream<Sealing> {
    /// Begins a stream with its salt, which is to be random and new for each stream
    /// under the key. The host sends the salt before the first chunk.
    ///
    /// # Errors
    ///
    /// [`Refusal::Settings`] if the salt has not [`salt_len`](Method::salt_len) bytes.
    pub fn begin(key: &Key, salt: &[u8]) -> Result<Self, Refusal> {
        ffi::sip004_stream_begin_seal(key, salt).map(|words| Self::from_words(&words))
    }

    /// Seals a chunk, a length with its payload, to the front of `out`, and gives
    /// the number of bytes written: 34 more than the payload has.
    ///
    /// The payload has 16,383 bytes at most and may be empty.
    ///
    /// # Errors
    ///
    /// The first that applies: [`Settings`](Refusal::Settings) (words from elsewhere
    /// alone), [`NotAuthentic`](Refusal::NotAuthentic) (words of a stream that has
    /// ended), [`Counter`](Refusal::Counter), [`Length`](Refusal::Length),
    /// [`Room`](Refusal::Room). A refusal writes nothing and leaves the stream as it
    /// was.
    pub fn seal_chunk(&mut self, payload: &[u8], out: &mut [u8]) -> Result<usize, Refusal> {
        ffi::sip004_stream_seal_chunk(&mut self.words, payload, out)
            .map(|answer| answer::length(answer[0]))
    }

    /// How long a sealed chunk would be.
    ///
    /// # Errors
    ///
    /// [`Refusal::Length`] if the payload has more than 16,383 bytes.
    pub fn sealed_chunk_len(payload_len: usize) -> Result<usize, Refusal> {
        match payload_len {
            0..=MAX_CHUNK => Ok(payload_len + CHUNK_OVERHEAD),
            _ => Err(Refusal::Length),
        }
    }
}

impl Stream<Opening> {
    /// Begins a stream with its salt, which the host read before the first chunk.
    ///
    /// # Errors
    ///
    /// [`Refusal::Settings`] if the salt has not [`salt_len`](Method::salt_len) bytes.
    pub fn begin(key: &Key, salt: &[u8]) -> Result<Self, Refusal> {
        ffi::sip004_stream_begin_open(key, salt).map(|words| Self::from_words(&words))
    }

    /// Opens the next piece of the stream, a length or a payload by turns.
    ///
    /// `bytes` is what has come in and was not used yet, without the salt; those behind
    /// the piece are not read. A payload goes to the front of `out`; bytes behind it are
    /// not written. A length writes nothing, and may be 0: then 16 bytes are the payload.
    ///
    /// # Errors
    ///
    /// The first that applies: [`Settings`](Refusal::Settings) (words from elsewhere
    /// alone), [`NotAuthentic`](Refusal::NotAuthentic) (the stream has ended),
    /// [`Counter`](Refusal::Counter), [`More`](Refusal::More),
    /// [`Room`](Refusal::Room), [`NotAuthentic`](Refusal::NotAuthentic) (a tag is
    /// wrong), [`Malformed`](Refusal::Malformed) (a length above 16,383). None writes to
    /// `out`. The last two end the stream; the others leave it as it was, so that the
    /// call can be made again with more bytes or room.
    pub fn open_chunk(&mut self, bytes: &[u8], out: &mut [u8]) -> Result<Step, Refusal> {
        let turn = self.words[TURN];
        ffi::sip004_stream_open_chunk(&mut self.words, bytes, out)
            .map(|answer| Step::from_library(turn, &answer))
    }
}

impl<Half> Drop for Stream<Half> {
    fn drop(&mut self) {
        secret::wipe(&mut self.words[SUBKEY..]);
    }
}

impl<Half> fmt::Debug for Stream<Half> {
    fn fmt(&self, f: &mut fmt::Formatter<'_>) -> fmt::Result {
        f.debug_struct("Stream")
            .field("turn", &self.words[TURN])
            .field("method", &self.method())
            .field("counter", &self.words[COUNTER])
            .finish_non_exhaustive()
    }
}
