//! Heads of responses, which a server sends first.

use super::{payload_fits, Opening, Response, Sealing, Stream, TAG};
use crate::{answer, ffi, Key, Method, Refusal};

/// Type, timestamp and length; the request's salt comes on top.
const FIXED_HEADER: usize = 1 + 8 + 2;

/// The header of an opened response.
#[derive(Clone, Copy, Debug, PartialEq, Eq, Hash)]
pub struct ResponseHeader {
    /// How many bytes the head has; its first payload comes behind it.
    pub used: usize,
    /// The length of the first payload, which the next step opens.
    pub length: usize,
    /// The sender's clock.
    pub timestamp: u64,
}

impl Stream<Response, Sealing> {
    /// Seals a response's head with the first payload, and gives the stream behind
    /// them and their length.
    ///
    /// The salt is to be random and new for each stream; `request_salt` is the
    /// request's. `clock` is in seconds since 1970. The payload has 1 to 65,535 bytes.
    ///
    /// # Errors
    ///
    /// The first that applies: [`Settings`](Refusal::Settings) (a salt's length),
    /// [`Empty`](Refusal::Empty), [`Length`](Refusal::Length),
    /// [`Room`](Refusal::Room). A refusal writes nothing.
    pub fn seal(
        key: &Key,
        salt: &[u8],
        request_salt: &[u8],
        clock: u64,
        payload: &[u8],
        out: &mut [u8],
    ) -> Result<(Self, usize), Refusal> {
        let (words, answer) =
            ffi::stream_seal_response(key, salt, request_salt, clock, payload, out)?;
        Ok((Self::from_words(&words), answer::length(answer[0])))
    }

    /// How long a head with its first payload would be.
    ///
    /// # Errors
    ///
    /// [`Refusal::Empty`] if the payload has no bytes, [`Refusal::Length`] if it has
    /// more than 65,535.
    pub fn sealed_len(method: Method, payload_len: usize) -> Result<usize, Refusal> {
        Ok(2 * method.salt_len() + FIXED_HEADER + TAG + payload_fits(payload_len)? + TAG)
    }
}

impl Stream<Response, Opening> {
    /// Opens a response's head, for a client. Gives the stream behind it, at its
    /// first payload, and the header.
    ///
    /// `bytes` is what has come in so far; those behind the head are not read.
    ///
    /// # Errors
    ///
    /// The first that applies: [`Settings`](Refusal::Settings) (the salt's length),
    /// [`More`](Refusal::More), [`NotAuthentic`](Refusal::NotAuthentic),
    /// [`Type`](Refusal::Type), [`Time`](Refusal::Time),
    /// [`Binding`](Refusal::Binding) (it answers another request),
    /// [`Empty`](Refusal::Empty) (its first payload has no bytes). Behind `More` the
    /// call can be made again.
    pub fn open(
        key: &Key,
        clock: u64,
        request_salt: &[u8],
        bytes: &[u8],
    ) -> Result<(Self, ResponseHeader), Refusal> {
        let (words, answer) = ffi::stream_open_response(key, clock, request_salt, bytes)?;
        let header = ResponseHeader {
            used: answer::length(answer[0]),
            length: answer::length(answer[1]),
            timestamp: answer[2],
        };
        Ok((Self::from_words(&words), header))
    }
}
