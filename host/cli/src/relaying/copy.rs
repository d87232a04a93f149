//! Both directions of a stream.

use std::io::{self, BufRead, Write};
use std::net::{Shutdown, TcpStream};
use std::sync::atomic::{AtomicU64, Ordering};
use std::thread;
use std::time::{Duration, Instant};

use relay::io::Outgoing;
use relay::Address;

use super::datagrams::is_timeout;
use super::names::resolve_all;
use super::STACK;

/// How long a connection to the next host may take.
const DIAL_PATIENCE: Duration = Duration::from_secs(10);

/// How long a direction waits before it looks whether the other one still moves.
const TURN: Duration = Duration::from_secs(1);

/// When something last moved in either direction.
pub struct Activity {
    begun: Instant,
    moved: AtomicU64,
    patience: Duration,
}

impl Activity {
    pub fn new(patience: Duration) -> Self {
        Self {
            begun: Instant::now(),
            moved: AtomicU64::new(0),
            patience,
        }
    }

    fn milliseconds(&self) -> u64 {
        u64::try_from(self.begun.elapsed().as_millis()).unwrap_or(u64::MAX)
    }

    fn moved(&self) {
        self.moved.store(self.milliseconds(), Ordering::Relaxed);
    }

    fn is_over(&self) -> bool {
        let still = self
            .milliseconds()
            .saturating_sub(self.moved.load(Ordering::Relaxed));
        Duration::from_millis(still) >= self.patience
    }

    /// Passes an error on, but not that of a wait while the other direction may move.
    fn wait<T>(&self, result: io::Result<T>) -> io::Result<Option<T>> {
        match result {
            Ok(value) => {
                self.moved();
                Ok(Some(value))
            }
            Err(error) if error.kind() == io::ErrorKind::Interrupted => Ok(None),
            Err(error) if is_timeout(&error) && !self.is_over() => Ok(None),
            Err(error) => Err(error),
        }
    }
}

/// Sets the timeouts of a connection whose streams run.
pub fn set_running(socket: &TcpStream, patience: Duration) -> io::Result<()> {
    socket.set_read_timeout(Some(TURN))?;
    socket.set_write_timeout(Some(patience))
}

/// Seals all that a plain connection brings, to its end.
pub fn seal_all(
    mut plain: &TcpStream,
    sealed: &mut Outgoing<&TcpStream>,
    activity: &Activity,
) -> io::Result<()> {
    while activity.wait(sealed.send_from(&mut plain))? != Some(0) {}
    Ok(())
}

/// Hands on all that a sealed stream opens to, to its end.
pub fn open_all(
    opened: &mut impl BufRead,
    mut plain: &TcpStream,
    activity: &Activity,
) -> io::Result<()> {
    loop {
        let Some(payload) = activity.wait(opened.fill_buf())? else {
            continue;
        };
        if payload.is_empty() {
            return Ok(());
        }
        let length = payload.len();
        plain.write_all(payload)?;
        opened.consume(length);
    }
}

/// Runs both directions. Where one of them fails, both connections are closed, and so the other
/// one ends too.
pub fn both(
    there: impl FnOnce() -> io::Result<()>,
    back: impl FnOnce() -> io::Result<()> + Send,
    connections: [&TcpStream; 2],
) -> io::Result<()> {
    let closing = |outcome: io::Result<()>| {
        if outcome.is_err() {
            for connection in connections {
                // It may be closed already.
                let _ = connection.shutdown(Shutdown::Both);
            }
        }
        outcome
    };
    thread::scope(|scope| {
        let thread = thread::Builder::new().stack_size(STACK);
        let back = thread.spawn_scoped(scope, || closing(back()))?;
        let there = closing(there());
        let lost = || io::Error::other("a direction was lost");
        there.and(back.join().unwrap_or_else(|_| Err(lost())))
    })
}

/// Tells the reader of a connection that nothing more comes.
pub fn end(connection: &TcpStream) -> io::Result<()> {
    match connection.shutdown(Shutdown::Write) {
        // The other side was faster.
        Err(error) if error.kind() == io::ErrorKind::NotConnected => Ok(()),
        ended => ended,
    }
}

/// Connects to an address, the first of those that a name has and that answers in time.
pub fn dial(address: &Address) -> io::Result<TcpStream> {
    let found = resolve_all(address)?;
    let begun = Instant::now();
    let mut last = io::Error::new(io::ErrorKind::NotFound, "the name has no address");
    for at in found {
        let left = DIAL_PATIENCE.saturating_sub(begun.elapsed());
        if left.is_zero() {
            break;
        }
        match TcpStream::connect_timeout(&at, left) {
            Ok(socket) => {
                socket.set_nodelay(true)?;
                return Ok(socket);
            }
            Err(error) => last = error,
        }
    }
    Err(last)
}
