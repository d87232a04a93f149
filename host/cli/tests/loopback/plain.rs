//! What a user of the branch box does.

use std::io::{self, Read, Write};
use std::net::{Ipv4Addr, Ipv6Addr, Shutdown, SocketAddr, TcpStream, UdpSocket};
use std::thread;

use relay::MAX_DATAGRAM;

use crate::random::Random;
use crate::target::with_timeouts;
use crate::PATIENCE;

/// A sender of datagrams.
pub struct User {
    socket: UdpSocket,
}

impl User {
    pub fn new(branch: SocketAddr) -> Self {
        let bound = match branch {
            SocketAddr::V4(_) => UdpSocket::bind((Ipv4Addr::LOCALHOST, 0)),
            SocketAddr::V6(_) => UdpSocket::bind((Ipv6Addr::LOCALHOST, 0)),
        };
        let socket = bound.expect("a user is bound");
        socket.connect(branch).expect("a user sends to the branch");
        socket
            .set_read_timeout(Some(PATIENCE))
            .expect("a timeout is set");
        Self { socket }
    }

    pub fn send(&self, payload: &[u8]) {
        self.socket.send(payload).expect("a datagram is sent");
    }

    pub fn receive(&self) -> Vec<u8> {
        let mut room = vec![0; MAX_DATAGRAM];
        let received = loop {
            match self.socket.recv(&mut room) {
                Err(error) if error.kind() == io::ErrorKind::Interrupted => {}
                received => break received,
            }
        };
        room.truncate(received.expect("a datagram comes back"));
        room
    }

    /// Sends a payload that a target sends back.
    pub fn exchange(&self, payload: &[u8]) {
        self.send(payload);
        assert_same(payload, &self.receive());
    }

    /// Nothing has come back.
    pub fn assert_silent(&self) {
        self.socket
            .set_nonblocking(true)
            .expect("a look does not wait");
        let received = self.socket.recv(&mut [0; 1]);
        self.socket.set_nonblocking(false).expect("a user waits");
        let kind = received.map_err(|error| error.kind());
        assert_eq!(kind, Err(io::ErrorKind::WouldBlock), "a datagram came back");
    }
}

pub fn assert_same(sent: &[u8], received: &[u8]) {
    let same = sent
        .iter()
        .zip(received)
        .take_while(|(a, b)| a == b)
        .count();
    let (all, other) = (sent.len(), received.len());
    assert!(
        sent == received,
        "{other} bytes arrive for {all}, and differ from byte {same} on"
    );
}

/// Bytes to send, the same for the same seed.
pub fn bytes(seed: u64, length: usize) -> Vec<u8> {
    Random::new(seed).bytes(length)
}

pub fn stream(branch: SocketAddr) -> TcpStream {
    let connected = TcpStream::connect_timeout(&branch, PATIENCE);
    connected
        .and_then(with_timeouts)
        .expect("the branch accepts")
}

/// Sends bytes and their end while it receives what comes back, to its end.
pub fn send_and_receive(stream: &TcpStream, bytes: &[u8]) -> Vec<u8> {
    thread::scope(|scope| {
        scope.spawn(|| {
            let sent = { stream }.write_all(bytes);
            sent.and_then(|()| stream.shutdown(Shutdown::Write))
                .expect("all is sent");
        });
        receive_all(stream)
    })
}

pub fn receive_all(mut stream: &TcpStream) -> Vec<u8> {
    let mut received = Vec::new();
    let read = stream.read_to_end(&mut received);
    let length = received.len();
    read.unwrap_or_else(|error| panic!("after {length} bytes: {error}"));
    received
}

/// Sends bytes that a target sends back before any end comes.
pub fn exchange_open_stream(branch: SocketAddr, bytes: &[u8]) {
    let stream = stream(branch);
    let mut received = vec![0; bytes.len()];
    thread::scope(|scope| {
        scope.spawn(|| { &stream }.write_all(bytes).expect("all is sent"));
        let read = { &stream }.read_exact(&mut received);
        read.expect("all comes back");
    });
    assert_same(bytes, &received);
}

/// Sends bytes that a target sends back.
pub fn exchange_stream(branch: SocketAddr, bytes: &[u8]) {
    assert_same(bytes, &send_and_receive(&stream(branch), bytes));
}

/// The stream ends without a byte, in order or not.
pub fn assert_closed(mut stream: &TcpStream) {
    let read = stream.read_exact(&mut [0; 1]).map_err(|error| error.kind());
    let closed = [io::ErrorKind::UnexpectedEof, io::ErrorKind::ConnectionReset];
    let is_closed = read.is_err_and(|kind| closed.contains(&kind));
    assert!(is_closed, "the stream is not closed: {read:?}");
}
