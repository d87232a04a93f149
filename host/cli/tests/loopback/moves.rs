//! A client whose address changes, played with the library.

use std::net::{Ipv4Addr, SocketAddr, UdpSocket};

use relay::{Address, Clock, Key, Peer, SealSession, Table, MAX_DATAGRAM};

use crate::place::{Place, METHOD};
use crate::target::Echo;
use crate::PATIENCE;

/// One session, which sends from any socket.
struct Client {
    key: Key,
    session: SealSession,
    table: Table,
    server: SocketAddr,
    target: Address,
}

impl Client {
    fn seal(&mut self, payload: &[u8]) -> Vec<u8> {
        let mut datagram = vec![0; MAX_DATAGRAM];
        let sealed = self.session.seal(
            &self.key,
            None,
            Clock::new().now(),
            &self.target,
            0,
            payload,
            &mut datagram,
        );
        datagram.truncate(sealed.expect("a short payload is sealed"));
        datagram
    }

    /// The payload of the next reply, which comes from the target.
    fn receive(&mut self, socket: &UdpSocket) -> Vec<u8> {
        let mut datagram = vec![0; MAX_DATAGRAM];
        let length = socket.recv(&mut datagram).expect("a reply comes");
        let (server, client) = (Peer::from(self.server), self.session.id());
        let mut plaintext = vec![0; length];
        let opened = self.table.open_client(
            &self.key,
            Clock::new().now(),
            client,
            server,
            &datagram[..length],
            &mut plaintext,
        );
        let header = opened.expect("the reply is for this client");
        assert_eq!(header.address(&plaintext), self.target);
        header.payload(&plaintext).to_vec()
    }
}

fn socket() -> UdpSocket {
    let socket = UdpSocket::bind((Ipv4Addr::LOCALHOST, 0)).expect("a client is bound");
    socket
        .set_read_timeout(Some(PATIENCE))
        .expect("a timeout is set");
    socket
}

#[test]
fn replies_go_to_where_the_client_was_heard_last() {
    let place = Place::new("moves", METHOD);
    let target = Echo::new();
    let serve = place.serve(&[]);
    let mut client = Client {
        key: place.key(),
        session: SealSession::client(2022),
        table: Table::new(0).expect("a lawful retention"),
        server: serve.address(),
        target: target.address.into(),
    };
    let [home, away, stranger] = [(); 3].map(|()| socket());
    let first = client.seal(b"from home");
    let send = |from: &UdpSocket, datagram: &[u8]| {
        let sent = from.send_to(datagram, serve.address());
        sent.expect("a datagram is sent");
    };
    send(&home, &first);
    assert_eq!(client.receive(&home), b"from home");
    let second = client.seal(b"from elsewhere");
    send(&away, &second);
    assert_eq!(client.receive(&away), b"from elsewhere");
    // Copies from a stranger move nothing.
    send(&stranger, &first);
    send(&stranger, &second);
    place.await_counters("both copies are refused", |counters| {
        counters.answers[8] == 2
    });
    let sessions = place.sessions();
    let [session] = &sessions[..] else {
        panic!("one session is alive, not {}", sessions.len());
    };
    let away = away.local_addr().expect("a client has an address");
    assert_eq!((session.id, session.peer), (2022, Peer::from(away)));
    assert_eq!((session.accepted, session.repeats), (2, 2));
}
