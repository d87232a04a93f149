//! Opening a stream piece by piece.

use super::Salt;
use crate::stream::{Opening, Step};
use crate::{sip004, Clock, Key, Refusal, RequestStream, ResponseStream};

/// What opens the next piece of a stream: at its front, or behind it.
#[derive(Debug)]
pub(super) enum Opener<'b> {
    Request(RequestStream<Opening>),
    ResponseHead {
        key: &'b Key,
        clock: &'b Clock,
        request_salt: Salt,
    },
    Response(ResponseStream<Opening>),
    Sip004Salt(&'b sip004::Key),
    Sip004(sip004::Receiver),
}

/// A piece that was opened.
pub(super) struct Piece {
    /// How many bytes it gave.
    pub(super) length: usize,
    /// Whether it has the next one with it, as a length its payload: the stream does not
    /// end between them.
    pub(super) is_followed: bool,
}

impl Opener<'_> {
    /// Opens the piece at the front of `bytes` to the front of `out`. Gives how many bytes
    /// were used, and the piece.
    pub(super) fn open(&mut self, bytes: &[u8], out: &mut [u8]) -> Result<(usize, Piece), Refusal> {
        match self {
            Self::Request(stream) => stream.open_chunk(bytes, out).map(piece),
            Self::Response(stream) => stream.open_chunk(bytes, out).map(piece),
            Self::Sip004(stream) => stream.open_chunk(bytes, out).map(piece),
            Self::ResponseHead {
                key,
                clock,
                request_salt,
            } => {
                let salt = request_salt.as_bytes();
                let (stream, header) = ResponseStream::open(key, clock.now(), salt, bytes)?;
                *self = Self::Response(stream);
                Ok((header.used, front(true)))
            }
            Self::Sip004Salt(key) => {
                let wanted = key.method().salt_len();
                let salt = bytes.get(..wanted).ok_or(Refusal::More { wanted })?;
                *self = Self::Sip004(sip004::Receiver::begin(key, salt)?);
                Ok((wanted, front(false)))
            }
        }
    }
}

/// What comes before the first payload.
fn front(is_followed: bool) -> Piece {
    Piece {
        length: 0,
        is_followed,
    }
}

fn piece(step: Step) -> (usize, Piece) {
    let piece = match step {
        Step::Length { .. } => front(true),
        Step::Payload { length, .. } => Piece {
            length,
            is_followed: false,
        },
    };
    (step.used(), piece)
}
