//! Sealing a stream chunk by chunk.

use super::Salt;
use crate::stream::Sealing;
use crate::{sip004, Clock, Key, Refusal, RequestStream, ResponseStream, MAX_CHUNK};

/// What seals the next chunk of a stream: the first one, or one behind it.
#[derive(Debug)]
pub(super) enum Sealer<'b> {
    Request(RequestStream<Sealing>),
    ResponseHead {
        key: &'b Key,
        clock: &'b Clock,
        salt: Salt,
        request_salt: Salt,
    },
    Response(ResponseStream<Sealing>),
    Sip004 {
        stream: sip004::Sender,
        /// Empty once it was sealed with the first chunk.
        salt: Salt,
    },
}

impl Sealer<'_> {
    /// The longest payload of a chunk.
    pub(super) fn longest(&self) -> usize {
        match self {
            Self::Sip004 { .. } => sip004::MAX_CHUNK,
            _ => MAX_CHUNK,
        }
    }

    /// Seals a payload to the front of `out`, with what goes before the first one, and gives
    /// how many bytes that are.
    pub(super) fn seal(&mut self, payload: &[u8], out: &mut [u8]) -> Result<usize, Refusal> {
        match self {
            Self::Request(stream) => stream.seal_chunk(payload, out),
            Self::Response(stream) => stream.seal_chunk(payload, out),
            Self::ResponseHead {
                key,
                clock,
                salt,
                request_salt,
            } => {
                let (salt, request_salt) = (salt.as_bytes(), request_salt.as_bytes());
                let (stream, length) =
                    ResponseStream::seal(key, salt, request_salt, clock.now(), payload, out)?;
                *self = Self::Response(stream);
                Ok(length)
            }
            Self::Sip004 { stream, salt } => {
                let (front, behind) = out.split_at_mut(salt.as_bytes().len());
                let length = front.len() + stream.seal_chunk(payload, behind)?;
                front.copy_from_slice(salt.as_bytes());
                *salt = Salt::default();
                Ok(length)
            }
        }
    }
}
