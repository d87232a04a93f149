//! Streams over TCP, and what is sent through them.

use std::io::{self, Read, Write};
use std::net::{TcpListener, TcpStream};
use std::thread;
use std::time::{Duration, Instant};

use relay::io::{Buffers, Incoming, Outgoing};
use relay::sip004::{Key, MAX_CHUNK};
use relay::Address;

use crate::tally::Tally;
use crate::{random, Outcome, PATIENCE};

/// What goes from one end to the other at once: from a byte over what fills a block and
/// a frame to the longest chunk. More than that is several chunks.
pub const LENGTHS: [usize; 12] = [
    1, 2, 15, 16, 17, 255, 1_400, 8_192, 16_382, MAX_CHUNK, 16_384, 50_000,
];

/// The lengths of the writes in which sealed bytes leave: a chunk does not arrive as one.
const WRITES: [usize; 3] = [1, 20, usize::MAX];

/// How long to wait before a listener is asked once more.
const PAUSE: Duration = Duration::from_millis(1);

/// The end of a connection whose bytes the library seals and opens.
pub struct Sealed<'a> {
    incoming: Incoming<'a, &'a TcpStream>,
    outgoing: Outgoing<'a, Pieces<'a>>,
}

impl<'a> Sealed<'a> {
    pub fn new(
        socket: &'a TcpStream,
        key: &'a Key,
        [up, down]: &'a mut [Buffers; 2],
    ) -> Outcome<Self> {
        let salt = random::bytes(key.method().salt_len())?;
        let sink = Pieces { socket, written: 0 };
        Ok(Self {
            incoming: Incoming::sip004(socket, key, down),
            outgoing: Outgoing::sip004(sink, key, &salt, up)?,
        })
    }

    /// Sends a text in as few chunks as hold it.
    pub fn send(&mut self, text: &[u8]) -> Outcome<()> {
        let sent = self.outgoing.write_all(text);
        sent.map_err(|error| told("a sealed stream", &error))
    }

    /// So many bytes of the text that the other end sends.
    pub fn receive(&mut self, length: usize) -> Outcome<Vec<u8>> {
        let mut text = vec![0; length];
        let received = self.incoming.read_exact(&mut text);
        received.map_err(|error| told("a sealed stream", &error))?;
        Ok(text)
    }

    /// The address with which a client's text begins.
    pub fn receive_address(&mut self) -> Outcome<Address> {
        let received = self.incoming.read_address();
        received.map_err(|error| told("a sealed stream", &error))
    }
}

/// A socket that takes sealed bytes in writes of several lengths.
struct Pieces<'a> {
    socket: &'a TcpStream,
    written: usize,
}

impl Write for Pieces<'_> {
    fn write(&mut self, bytes: &[u8]) -> io::Result<usize> {
        let length = WRITES[self.written % WRITES.len()].min(bytes.len());
        self.written += 1;
        self.socket.write(&bytes[..length])
    }

    fn flush(&mut self) -> io::Result<()> {
        self.socket.flush()
    }
}

/// Sends a text of each length from the sealed end, and another one back.
pub fn exchange(sealed: &mut Sealed, plain: &mut TcpStream, tally: &mut Tally) -> Outcome<()> {
    for length in LENGTHS {
        let text = random::bytes(length)?;
        sealed.send(&text)?;
        same(&text, &receive(plain, length)?)?;
        let text = random::bytes(length)?;
        send(plain, &text)?;
        same(&text, &sealed.receive(length)?)?;
        tally.bytes += 2 * length;
    }
    tally.streams += 2;
    Ok(())
}

pub fn send(plain: &mut TcpStream, text: &[u8]) -> Outcome<()> {
    let sent = plain.write_all(text);
    sent.map_err(|error| told("a plain stream", &error))
}

pub fn receive(plain: &mut TcpStream, length: usize) -> Outcome<Vec<u8>> {
    let mut text = vec![0; length];
    let received = plain.read_exact(&mut text);
    received.map_err(|error| told("a plain stream", &error))?;
    Ok(text)
}

pub fn same(sent: &[u8], received: &[u8]) -> Outcome<()> {
    if sent == received {
        return Ok(());
    }
    let same = sent.iter().zip(received).take_while(|(a, b)| a == b);
    let (place, sent, received) = (same.count(), sent.len(), received.len());
    let message = format!("{received} bytes arrive for {sent}, and differ from byte {place} on");
    Err(message.into())
}

/// The next connection, or an error where none comes.
pub fn accept(listener: &TcpListener) -> Outcome<TcpStream> {
    listener.set_nonblocking(true)?;
    let begun = Instant::now();
    loop {
        match listener.accept() {
            Ok((socket, _)) => {
                socket.set_nonblocking(false)?;
                return with_timeouts(socket);
            }
            Err(error) if error.kind() == io::ErrorKind::WouldBlock => {}
            Err(error) => return Err(error.into()),
        }
        if begun.elapsed() > PATIENCE {
            return Err("nobody connects".into());
        }
        thread::sleep(PAUSE);
    }
}

pub fn with_timeouts(socket: TcpStream) -> Outcome<TcpStream> {
    socket.set_read_timeout(Some(PATIENCE))?;
    socket.set_write_timeout(Some(PATIENCE))?;
    socket.set_nodelay(true)?;
    Ok(socket)
}

/// In words: the system calls a timeout another thing.
pub fn told(what: &str, error: &io::Error) -> Box<dyn std::error::Error> {
    match error.kind() {
        io::ErrorKind::WouldBlock | io::ErrorKind::TimedOut => {
            format!("nothing moves on {what} for {} s", PATIENCE.as_secs()).into()
        }
        _ => format!("{what}: {error}").into(),
    }
}
