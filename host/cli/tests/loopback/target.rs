//! Targets, which the box sends to.

use std::io::{self, Read, Write};
use std::net::{IpAddr, Ipv4Addr, Shutdown, SocketAddr, TcpListener, TcpStream, UdpSocket};
use std::sync::atomic::{AtomicBool, Ordering};
use std::sync::Arc;
use std::thread::{self, JoinHandle};
use std::time::Duration;

use relay::MAX_DATAGRAM;

use crate::{ports, PATIENCE};

/// How often a target looks whether it is to end.
const LOOK: Duration = Duration::from_millis(50);

/// A thread with a socket, which ends when this is dropped.
pub struct Target {
    pub address: SocketAddr,
    is_over: Arc<AtomicBool>,
    thread: Option<JoinHandle<()>>,
}

impl Target {
    /// A target that does something about each datagram.
    pub fn datagrams(
        socket: UdpSocket,
        mut receive: impl FnMut(&UdpSocket, SocketAddr, &[u8]) + Send + 'static,
    ) -> Self {
        socket
            .set_read_timeout(Some(LOOK))
            .expect("a timeout is set");
        let address = socket.local_addr().expect("a target has an address");
        Self::run(address, move |is_over| {
            let mut room = vec![0; MAX_DATAGRAM];
            while !is_over.load(Ordering::Relaxed) {
                if let Ok((length, from)) = socket.recv_from(&mut room) {
                    receive(&socket, from, &room[..length]);
                }
            }
        })
    }

    /// A target that does something about each connection, in a thread for each.
    pub fn streams(accept: impl Fn(TcpStream) -> io::Result<()> + Clone + Send + 'static) -> Self {
        let listener = TcpListener::bind((Ipv4Addr::LOCALHOST, 0)).expect("a target is bound");
        Self::streams_of(listener, accept)
    }

    fn streams_of(
        listener: TcpListener,
        accept: impl Fn(TcpStream) -> io::Result<()> + Clone + Send + 'static,
    ) -> Self {
        let address = listener.local_addr().expect("a target has an address");
        Self::run(address, move |is_over| {
            for connection in listener.incoming() {
                if is_over.load(Ordering::Relaxed) {
                    break;
                }
                let accept = accept.clone();
                // An error is the other end's to notice.
                thread::spawn(move || accept(with_timeouts(connection?)?));
            }
        })
    }

    fn run(address: SocketAddr, work: impl FnOnce(&AtomicBool) + Send + 'static) -> Self {
        let is_over = Arc::new(AtomicBool::new(false));
        let flag = Arc::clone(&is_over);
        Self {
            address,
            is_over,
            thread: Some(thread::spawn(move || work(&flag))),
        }
    }
}

impl Drop for Target {
    fn drop(&mut self) {
        self.is_over.store(true, Ordering::Relaxed);
        // One that waits for a connection gets one; there is nobody for datagrams.
        let _ = TcpStream::connect_timeout(&self.address, PATIENCE);
        if let Some(thread) = self.thread.take() {
            let _ = thread.join();
        }
    }
}

/// A target that sends back each datagram, and what comes on each connection, to its end.
pub struct Echo {
    pub address: SocketAddr,
    _targets: [Target; 2],
}

impl Echo {
    pub fn new() -> Self {
        Self::at(Ipv4Addr::LOCALHOST.into()).expect("a target is bound")
    }

    pub fn at(ip: IpAddr) -> io::Result<Self> {
        let (listener, socket) = ports::bind_at(ip)?;
        let streams = Target::streams_of(listener, echo);
        Ok(Self {
            address: streams.address,
            _targets: [Target::datagrams(socket, send_back), streams],
        })
    }
}

pub fn send_back(socket: &UdpSocket, from: SocketAddr, payload: &[u8]) {
    // What is not sent is missed by who waits for it.
    let _ = socket.send_to(payload, from);
}

fn echo(mut connection: TcpStream) -> io::Result<()> {
    let mut room = [0; 16_384];
    loop {
        match connection.read(&mut room)? {
            0 => return connection.shutdown(Shutdown::Write),
            length => connection.write_all(&room[..length])?,
        }
    }
}

pub fn with_timeouts(connection: TcpStream) -> io::Result<TcpStream> {
    connection.set_read_timeout(Some(PATIENCE))?;
    connection.set_write_timeout(Some(PATIENCE))?;
    Ok(connection)
}
