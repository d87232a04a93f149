//! Ports of the loopback interface that nobody uses.

use std::io;
use std::net::{IpAddr, Ipv4Addr, SocketAddr, TcpListener, UdpSocket};

/// How often a port is looked for that is free for both protocols.
const TRIES: usize = 20;

/// A listener and a socket of one free port.
pub fn bind() -> io::Result<(TcpListener, UdpSocket)> {
    bind_at(Ipv4Addr::LOCALHOST.into())
}

/// A listener and a socket of one free port of an address.
pub fn bind_at(ip: IpAddr) -> io::Result<(TcpListener, UdpSocket)> {
    let mut tries = 0;
    loop {
        let listener = TcpListener::bind((ip, 0))?;
        tries += 1;
        match UdpSocket::bind(listener.local_addr()?) {
            Ok(socket) => return Ok((listener, socket)),
            Err(error) if tries == TRIES => return Err(error),
            Err(_) => {}
        }
    }
}

/// An address that was free just now, for a peer to bind.
pub fn free() -> io::Result<SocketAddr> {
    bind()?.0.local_addr()
}
