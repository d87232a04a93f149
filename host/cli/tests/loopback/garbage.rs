//! A port scan: bytes from somebody who has no key.

use std::io::{self, Read, Write};
use std::net::{Ipv4Addr, SocketAddr, TcpListener, TcpStream, UdpSocket};

use crate::place::{Place, METHOD};
use crate::plain::{self, User};
use crate::program::Memory;
use crate::random::Random;
use crate::target::{with_timeouts, Echo};
use crate::PATIENCE;

/// How much of it there is in one round.
const DATAGRAMS: usize = 2_000;
const STREAMS: usize = 150;

/// Connections on which nothing is said, fewer than the box takes at a time.
const HALF_OPEN: usize = 40;

const ROUNDS: usize = 3;

/// The bytes that a branch sends first on a stream.
pub fn head(place: &Place) -> Vec<u8> {
    let listener = TcpListener::bind((Ipv4Addr::LOCALHOST, 0)).expect("a listener is bound");
    let server = listener.local_addr().expect("a listener has an address");
    let connect = place.connect(server, "127.0.0.1:9", &[]);
    let mut user = plain::stream(connect.address());
    user.write_all(b"hello").expect("the user speaks");
    let (connection, _) = listener.accept().expect("the branch connects");
    let mut connection = with_timeouts(connection).expect("timeouts are set");
    let mut room = vec![0; 65_536];
    let length = connection.read(&mut room).expect("the branch sends");
    room.truncate(length);
    room
}

/// Datagrams of all lengths. A few are as long as they can be.
fn send_datagrams(server: SocketAddr, random: &mut Random) -> io::Result<()> {
    let socket = UdpSocket::bind((Ipv4Addr::LOCALHOST, 0))?;
    for number in 0..DATAGRAMS {
        let length = match number % 500 {
            499 => 65_507 - random.place(3),
            place if place < 100 => place,
            _ => random.place(1_500),
        };
        socket.send_to(&random.bytes(length), server)?;
    }
    Ok(())
}

/// Streams of random bytes, and of a good head that is cut short or damaged.
fn send_streams(server: SocketAddr, head: &[u8], random: &mut Random) -> io::Result<()> {
    for number in 0..STREAMS {
        let mut stream = with_timeouts(TcpStream::connect_timeout(&server, PATIENCE)?)?;
        let bytes = match number % 3 {
            0 => {
                let length = random.place(3_000);
                random.bytes(length)
            }
            1 => head[..random.place(head.len())].to_vec(),
            _ => {
                let mut damaged = head.to_vec();
                damaged[random.place(head.len())] ^= 1 << random.below(8);
                damaged
            }
        };
        // The box may have closed it already.
        let _ = stream.write_all(&bytes);
    }
    Ok(())
}

#[test]
fn a_port_scan_changes_nothing() {
    let place = Place::new("scan", METHOD);
    let target = Echo::new();
    let serve = place.serve(&[]);
    let connect = place.connect(serve.address(), target.address, &[]);
    let (server, head) = (serve.address(), head(&place));
    let mut random = Random::new(2022);
    let half_open = (0..HALF_OPEN).map(|_| TcpStream::connect_timeout(&server, PATIENCE));
    let half_open: io::Result<Vec<_>> = half_open.collect();
    let mut memory = Vec::new();
    for _ in 0..ROUNDS {
        send_datagrams(server, &mut random).expect("the scan goes on");
        send_streams(server, &head, &mut random).expect("the scan goes on");
        plain::exchange_stream(connect.address(), b"a stream gets through");
        memory.push(serve.memory());
    }
    let counters = place.service().counters;
    assert_eq!((counters.answers[0], counters.forwarded), (0, 0));
    assert_eq!(place.sessions(), []);
    User::new(connect.address()).exchange(b"and datagrams");
    place.await_counters("one datagram", |counters| counters.answers[0] == 1);
    Memory::assert_not_grown(memory[0], memory[ROUNDS - 1]);
    assert_eq!(half_open.map_or(0, |streams| streams.len()), HALF_OPEN);
}

/// A head that was listened to is not taken a second time.
#[test]
fn a_head_is_taken_once() {
    let place = Place::new("head", METHOD);
    let head = head(&place);
    let serve = place.serve(&[]);
    for refused in 0..3 {
        let mut stream = plain::stream(serve.address());
        stream.write_all(&head).expect("the box listens");
        place.await_counters("the head is taken once", |counters| {
            (counters.streams, counters.streams_refused) == (refused + 1, refused)
        });
    }
}
