//! What a stream's bytes are read from.

use std::io::{self, Read};
use std::net::TcpStream;
use std::sync::atomic::{AtomicBool, Ordering};
use std::time::{Duration, Instant};

/// The least that a socket can wait.
const SHORTEST: Duration = Duration::from_millis(1);

/// Until when the head of a stream has to be there. A sender of single bytes gets no more time.
pub struct Deadline {
    until: Instant,
    is_met: AtomicBool,
}

impl Deadline {
    pub fn new(patience: Duration) -> Self {
        Self {
            until: Instant::now() + patience,
            is_met: AtomicBool::new(false),
        }
    }

    /// The head is there; the socket's own timeouts hold from now on.
    pub fn meet(&self) {
        self.is_met.store(true, Ordering::Release);
    }
}

/// A connection that is read under a deadline.
pub struct Source<'a> {
    socket: &'a TcpStream,
    deadline: &'a Deadline,
}

impl<'a> Source<'a> {
    pub fn new(socket: &'a TcpStream, deadline: &'a Deadline) -> Self {
        Self { socket, deadline }
    }
}

impl Read for Source<'_> {
    fn read(&mut self, bytes: &mut [u8]) -> io::Result<usize> {
        if !self.deadline.is_met.load(Ordering::Acquire) {
            let left = self
                .deadline
                .until
                .saturating_duration_since(Instant::now());
            if left < SHORTEST {
                return Err(io::ErrorKind::TimedOut.into());
            }
            self.socket.set_read_timeout(Some(left))?;
        }
        let mut socket = self.socket;
        socket.read(bytes)
    }
}
