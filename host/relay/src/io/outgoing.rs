//! The half of a stream that is written.

use std::io::{self, Read, Write};

use super::sealer::Sealer;
use super::{Buffers, Salt};
use crate::{sip004, Address, Clock, Key, RequestStream};

/// A stream that seals what is written to it, and writes that to a sink.
///
/// A call of [`write`](Write::write) is one chunk, of up to the longest payload of its
/// edition: who writes a byte at a time sends 34 more with each. A call without bytes writes
/// nothing.
///
/// A chunk is written whole. If the sink fails in it, nobody knows how much of it was sent,
/// and its counter is used: sealing other bytes under it would break the encryption. So the
/// stream is then broken, and every later write is an error of kind
/// [`BrokenPipe`](io::ErrorKind::BrokenPipe). A sink that does not block is of no use here.
///
/// The other side sees a stream end where the host closes the connection: SIP022 has no sign
/// for it.
#[derive(Debug)]
pub struct Outgoing<'b, W> {
    leaving: Leaving<'b, W>,
    buffers: &'b mut Buffers,
}

impl<'b, W: Write> Outgoing<'b, W> {
    /// Sends the head of a request with its first payload, for a client: see
    /// [`RequestStream::seal`]. The client keeps the salt, as the response names it.
    ///
    /// # Errors
    ///
    /// Those of the sink; the refusals of [`RequestStream::seal`].
    // As RequestStream::seal has them; sink and buffers come on top.
    #[allow(clippy::too_many_arguments)]
    pub fn request(
        mut sink: W,
        key: &Key,
        salt: &[u8],
        clock: &Clock,
        address: &Address,
        padding: usize,
        payload: &[u8],
        buffers: &'b mut Buffers,
    ) -> io::Result<Self> {
        let out = &mut buffers.sealed;
        let (stream, length) =
            RequestStream::seal(key, salt, clock.now(), address, padding, payload, out)?;
        sink.write_all(&out[..length])?;
        Ok(Self::of(sink, Sealer::Request(stream), buffers))
    }

    /// A response, for a server. Its head goes out with the first payload that is written,
    /// and gives the refusals of [`ResponseStream::seal`](crate::ResponseStream::seal).
    ///
    /// The salt is to be random and new for each stream; `request_salt` is the request's:
    /// [`RequestHead::salt`](super::RequestHead::salt).
    pub fn response(
        sink: W,
        key: &'b Key,
        salt: &[u8],
        request_salt: &[u8],
        clock: &'b Clock,
        buffers: &'b mut Buffers,
    ) -> Self {
        let sealer = Sealer::ResponseHead {
            key,
            clock,
            salt: Salt::new(salt),
            request_salt: Salt::new(request_salt),
        };
        Self::of(sink, sealer, buffers)
    }

    /// A stream of the 2017 edition, in either direction. Its salt, which is to be random and
    /// new for each stream, goes out with the first chunk.
    ///
    /// # Errors
    ///
    /// [`Refusal::Settings`](crate::Refusal::Settings) if the salt has another length than
    /// the method's.
    pub fn sip004(
        sink: W,
        key: &sip004::Key,
        salt: &[u8],
        buffers: &'b mut Buffers,
    ) -> io::Result<Self> {
        let stream = sip004::Sender::begin(key, salt)?;
        let salt = Salt::new(salt);
        Ok(Self::of(sink, Sealer::Sip004 { stream, salt }, buffers))
    }

    fn of(sink: W, sealer: Sealer<'b>, buffers: &'b mut Buffers) -> Self {
        let leaving = Leaving {
            sink,
            sealer,
            is_broken: false,
        };
        Self { leaving, buffers }
    }

    /// Reads once from a source of plain bytes and sends what it gave as one chunk. Gives how
    /// many bytes that were; 0 is the source's end, and sends nothing.
    ///
    /// # Errors
    ///
    /// Those of the source, behind which the stream is as it was; those of writing.
    pub fn send_from(&mut self, source: &mut impl Read) -> io::Result<usize> {
        let Buffers { sealed, plain } = &mut *self.buffers;
        let room = &mut plain[..self.leaving.sealer.longest()];
        let length = loop {
            match source.read(room) {
                // No source reads more than it has room for, but one may say so.
                Ok(length) => break length.min(room.len()),
                Err(error) if error.kind() == io::ErrorKind::Interrupted => {}
                Err(error) => return Err(error),
            }
        };
        self.leaving.send(&room[..length], sealed)?;
        Ok(length)
    }
}

impl<W: Write> Write for Outgoing<'_, W> {
    fn write(&mut self, payload: &[u8]) -> io::Result<usize> {
        let length = payload.len().min(self.leaving.sealer.longest());
        let out = &mut self.buffers.sealed;
        self.leaving.send(&payload[..length], out)?;
        Ok(length)
    }

    fn flush(&mut self) -> io::Result<()> {
        self.leaving.sink.flush()
    }
}

/// The sealed bytes on their way to a sink.
#[derive(Debug)]
struct Leaving<'b, W> {
    sink: W,
    sealer: Sealer<'b>,
    is_broken: bool,
}

impl<W: Write> Leaving<'_, W> {
    /// Seals a payload to the front of `out` and writes that to the sink; nothing for a
    /// payload of no bytes.
    fn send(&mut self, payload: &[u8], out: &mut [u8]) -> io::Result<()> {
        if self.is_broken {
            return Err(io::ErrorKind::BrokenPipe.into());
        }
        if payload.is_empty() {
            return Ok(());
        }
        let length = self.sealer.seal(payload, out)?;
        // Until the sink has all of it.
        self.is_broken = true;
        self.sink.write_all(&out[..length])?;
        self.is_broken = false;
        Ok(())
    }
}
