//! The socket that one sender's datagrams leave by.

use std::io;
use std::net::{Ipv4Addr, Ipv6Addr, SocketAddr, UdpSocket};
use std::sync::atomic::{AtomicBool, Ordering};
use std::sync::Mutex;
use std::time::Duration;

use super::address::{canonical, mapped};
use super::lock;

/// How many targets of one sender are remembered, the newest ones.
const TARGETS: usize = 16;

/// How long a reader waits before it looks whether its sender is still there.
const PATIENCE: Duration = Duration::from_secs(1);

/// A socket with a port of its own, so that a reply can only belong to the sender that it was
/// opened for. Only targets that the sender sent to may answer.
pub struct Back {
    socket: UdpSocket,
    takes_v6: bool,
    targets: Mutex<Vec<SocketAddr>>,
    closed: AtomicBool,
}

impl Back {
    /// Opens a socket for both versions of IP, or for IPv4 where there is no other.
    pub fn open() -> io::Result<Self> {
        let (socket, takes_v6) = match UdpSocket::bind((Ipv6Addr::UNSPECIFIED, 0)) {
            Ok(socket) => (socket, true),
            Err(_) => (UdpSocket::bind((Ipv4Addr::UNSPECIFIED, 0))?, false),
        };
        socket.set_read_timeout(Some(PATIENCE))?;
        Ok(Self {
            socket,
            takes_v6,
            targets: Mutex::new(Vec::with_capacity(TARGETS)),
            closed: AtomicBool::new(false),
        })
    }

    /// Sends to a target, which may answer from now on.
    pub fn send(&self, target: SocketAddr, bytes: &[u8]) -> io::Result<()> {
        self.remember(target);
        self.send_unanswered(target, bytes)
    }

    fn send_unanswered(&self, target: SocketAddr, bytes: &[u8]) -> io::Result<()> {
        let target = if self.takes_v6 {
            mapped(target)
        } else {
            target
        };
        self.socket.send_to(bytes, target).map(drop)
    }

    fn remember(&self, target: SocketAddr) {
        let mut targets = lock(&self.targets);
        if targets.contains(&target) {
            return;
        }
        if targets.len() == TARGETS {
            targets.remove(0);
        }
        targets.push(target);
    }

    /// The next datagram and who sent it.
    pub fn receive(&self, bytes: &mut [u8]) -> io::Result<(usize, SocketAddr)> {
        let (length, from) = self.socket.recv_from(bytes)?;
        Ok((length, canonical(from)))
    }

    pub fn may_answer(&self, from: SocketAddr) -> bool {
        lock(&self.targets).contains(&from)
    }

    /// Closes the socket for its reader, who is woken by a datagram to itself. If that does not
    /// get through, the reader's patience ends soon.
    pub fn close(&self) {
        self.closed.store(true, Ordering::Release);
        if let Ok(own) = self.socket.local_addr() {
            let loopback = SocketAddr::from((Ipv4Addr::LOCALHOST, own.port()));
            let _ = self.send_unanswered(loopback, &[]);
        }
    }

    pub fn is_closed(&self) -> bool {
        self.closed.load(Ordering::Acquire)
    }
}

#[cfg(test)]
mod tests {
    use std::net::{Ipv4Addr, UdpSocket};
    use std::thread;

    use super::{Back, TARGETS};

    #[test]
    fn only_targets_may_answer() {
        let target = UdpSocket::bind((Ipv4Addr::LOCALHOST, 0)).unwrap();
        let address = target.local_addr().unwrap();
        let back = Back::open().unwrap();
        assert!(!back.may_answer(address));
        back.send(address, b"question").unwrap();
        let mut bytes = [0; 16];
        let (length, from) = target.recv_from(&mut bytes).unwrap();
        assert_eq!(&bytes[..length], b"question");
        target.send_to(b"answer", from).unwrap();
        let (length, from) = back.receive(&mut bytes).unwrap();
        assert_eq!((&bytes[..length], from), (&b"answer"[..], address));
        assert!(back.may_answer(address));
        for port in 1..=TARGETS as u16 {
            back.remember(([192, 0, 2, 1], port).into());
        }
        assert!(!back.may_answer(address));
    }

    #[test]
    fn a_reader_is_woken() {
        let back = Back::open().unwrap();
        thread::scope(|scope| {
            let reader = scope.spawn(|| {
                while !back.is_closed() {
                    let _ = back.receive(&mut [0; 16]);
                }
            });
            back.close();
            assert!(reader.join().is_ok());
        });
    }
}
