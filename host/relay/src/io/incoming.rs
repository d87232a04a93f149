//! The half of a stream that is read.

use std::io::{self, BufRead, Read};
use std::ops::Range;
use std::sync::{Mutex, PoisonError};

use super::opener::Opener;
use super::{refusal, Buffers, Salt};
use crate::{address, sip004, Address, Clock, Key, Pool, Refusal, RequestStream};

/// What the head of a request says.
#[derive(Clone, Debug, PartialEq, Eq)]
pub struct RequestHead {
    /// Where the stream is to go.
    pub address: Address,
    /// The request's salt, which the response names.
    pub salt: Salt,
    /// How many bytes of padding there were.
    pub padding: u16,
    /// The sender's clock.
    pub timestamp: u64,
}

impl RequestHead {
    /// The bytes of the request's salt.
    pub fn salt(&self) -> &[u8] {
        self.salt.as_bytes()
    }
}

/// The payloads of a stream, opened from the sealed bytes of a source.
///
/// It reads as the plain text does: what the tags have vouched for, in the order in which it
/// was sealed. It reads ahead of what it gives, so the source is no use to others.
///
/// The end of the source is the end of the text where a chunk could begin, and where nothing
/// of a head has come. Anywhere else it is an error of kind
/// [`UnexpectedEof`](io::ErrorKind::UnexpectedEof).
///
/// Behind a refusal the stream is over, and every read gives the same one. Behind an error of
/// the source, such as a timeout, reading goes on where it was.
#[derive(Debug)]
pub struct Incoming<'b, R> {
    arriving: Arriving<'b, R>,
    opener: Opener<'b>,
    /// What of the buffer was opened and not given out.
    plain: Range<usize>,
    /// Whether the last piece has the next one with it.
    is_inside: bool,
    refused: Option<Refusal>,
}

impl<'b, R: Read> Incoming<'b, R> {
    /// Reads the head of a request, for a server, and gives what it says. The first payload
    /// is what is read first.
    ///
    /// Each of the two calls that open the head is made on whole bytes and accepted once, so
    /// that a sender whose bytes come slowly is no replay of itself. The pool is locked
    /// during the first call alone.
    ///
    /// # Errors
    ///
    /// Those of the source; its end before the head's; the refusals of
    /// [`RequestStream::open`] and [`RequestStream::open_variable`]. The salt of a front that
    /// was accepted stays in the pool.
    pub fn request(
        source: R,
        key: &Key,
        clock: &Clock,
        pool: &Mutex<Pool>,
        buffers: &'b mut Buffers,
    ) -> io::Result<(RequestHead, Self)> {
        let mut arriving = Arriving::new(source, buffers);
        let (mut stream, front, salt) = arriving
            .open(|bytes, _| {
                // A pool is whole whatever happened to who held it: the library does not
                // stop in between.
                let mut pool = pool.lock().unwrap_or_else(PoisonError::into_inner);
                let (stream, front) = RequestStream::open(key, clock.now(), bytes, &mut pool)?;
                let salt = Salt::new(&bytes[..key.method().salt_len()]);
                Ok((front.used, (stream, front, salt)))
            })?
            .ok_or(io::ErrorKind::UnexpectedEof)?;
        let (header, address) = arriving
            .open(|bytes, out| {
                let header = stream.open_variable(bytes, out)?;
                let address = header.address(out);
                Ok((header.used, (header, address)))
            })?
            .ok_or(io::ErrorKind::UnexpectedEof)?;
        let head = RequestHead {
            address,
            salt,
            padding: header.padding,
            timestamp: front.timestamp,
        };
        let mut incoming = Self::of(arriving, Opener::Request(stream));
        incoming.plain = header.payload;
        Ok((head, incoming))
    }

    /// A response, for a client. The first read reads its head, and gives the refusals of
    /// [`ResponseStream::open`](crate::ResponseStream::open).
    ///
    /// `request_salt` is the salt that the request was sealed with.
    pub fn response(
        source: R,
        key: &'b Key,
        clock: &'b Clock,
        request_salt: &[u8],
        buffers: &'b mut Buffers,
    ) -> Self {
        let opener = Opener::ResponseHead {
            key,
            clock,
            request_salt: Salt::new(request_salt),
        };
        Self::of(Arriving::new(source, buffers), opener)
    }

    /// A stream of the 2017 edition, in either direction. The first read reads its salt. A
    /// client's text begins with an address: see [`read_address`](Self::read_address).
    pub fn sip004(source: R, key: &'b sip004::Key, buffers: &'b mut Buffers) -> Self {
        Self::of(Arriving::new(source, buffers), Opener::Sip004Salt(key))
    }

    fn of(arriving: Arriving<'b, R>, opener: Opener<'b>) -> Self {
        Self {
            arriving,
            opener,
            plain: 0..0,
            is_inside: false,
            refused: None,
        }
    }

    /// Reads the address in front of the text of a client of the 2017 edition, which may be
    /// split over chunks.
    ///
    /// # Errors
    ///
    /// Those of reading; the end of the text; [`Refusal::Malformed`] if it is no address.
    /// What was read by then is gone.
    pub fn read_address(&mut self) -> io::Result<Address> {
        let mut bytes = [0; address::LONGEST];
        for length in 0..bytes.len() {
            self.read_exact(&mut bytes[length..=length])?;
            match Address::split(&bytes[..=length]) {
                Ok(Some((address, _))) => return Ok(address),
                Ok(None) => {}
                Err(_) => break,
            }
        }
        Err(Refusal::Malformed.into())
    }

    /// Opens the next piece. Whether there was one: `false` is the end of the text.
    fn open_next(&mut self) -> io::Result<bool> {
        if let Some(refusal) = self.refused {
            return Err(refusal.into());
        }
        let opener = &mut self.opener;
        match self.arriving.open(|bytes, out| opener.open(bytes, out)) {
            Ok(Some(piece)) => {
                self.plain = 0..piece.length;
                self.is_inside = piece.is_followed;
                Ok(true)
            }
            Ok(None) if self.is_inside => Err(io::ErrorKind::UnexpectedEof.into()),
            Ok(None) => Ok(false),
            Err(error) => {
                self.refused = refusal(&error);
                Err(error)
            }
        }
    }
}

impl<R: Read> BufRead for Incoming<'_, R> {
    fn fill_buf(&mut self) -> io::Result<&[u8]> {
        while self.plain.is_empty() && self.open_next()? {}
        Ok(&self.arriving.buffers.plain[self.plain.clone()])
    }

    fn consume(&mut self, amount: usize) {
        self.plain.start += amount.min(self.plain.len());
    }
}

impl<R: Read> Read for Incoming<'_, R> {
    fn read(&mut self, out: &mut [u8]) -> io::Result<usize> {
        if out.is_empty() {
            return Ok(0);
        }
        let mut plain = self.fill_buf()?;
        let length = plain.read(out)?;
        self.consume(length);
        Ok(length)
    }
}

/// The sealed bytes of a source, as they come in.
#[derive(Debug)]
struct Arriving<'b, R> {
    source: R,
    buffers: &'b mut Buffers,
    /// What of the buffer has come in and was not used.
    unused: Range<usize>,
}

impl<'b, R: Read> Arriving<'b, R> {
    fn new(source: R, buffers: &'b mut Buffers) -> Self {
        Self {
            source,
            buffers,
            unused: 0..0,
        }
    }

    /// Makes a call on what has come in, and again when there is what it wants more. The call
    /// gives how many bytes it used. `None` if the source ends before the first of them.
    fn open<T>(
        &mut self,
        mut call: impl FnMut(&[u8], &mut [u8]) -> Result<(usize, T), Refusal>,
    ) -> io::Result<Option<T>> {
        loop {
            let Buffers { sealed, plain } = &mut *self.buffers;
            match call(&sealed[self.unused.clone()], plain) {
                Ok((used, opened)) => {
                    self.unused.start += used;
                    return Ok(Some(opened));
                }
                Err(Refusal::More { wanted }) if self.read(wanted)? => {}
                Err(Refusal::More { .. }) if self.unused.is_empty() => return Ok(None),
                Err(Refusal::More { .. }) => return Err(io::ErrorKind::UnexpectedEof.into()),
                Err(refusal) => return Err(refusal.into()),
            }
        }
    }

    /// Reads until so many bytes have come in. Whether they have: `false` is the end.
    fn read(&mut self, wanted: usize) -> io::Result<bool> {
        let sealed = &mut self.buffers.sealed;
        sealed.copy_within(self.unused.clone(), 0);
        self.unused = 0..self.unused.len();
        while self.unused.len() < wanted {
            let room = &mut sealed[self.unused.end..];
            let most = room.len();
            match self.source.read(room) {
                Ok(0) => return Ok(false),
                // No source reads more than it has room for, but one may say so.
                Ok(length) => self.unused.end += length.min(most),
                Err(error) if error.kind() == io::ErrorKind::Interrupted => {}
                Err(error) => return Err(error),
            }
        }
        Ok(true)
    }
}
