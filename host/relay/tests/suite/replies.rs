//! Replies to clients.

use std::io::{self, ErrorKind, Read};
use std::net::SocketAddr;

use relay::io::refusal;
use relay::{Header, Method, Peer, Refusal, Replies, Table};

use crate::common::{key, open, payload, peer, sealed, short_address, Random, CLOCK, FILL};

/// Random bytes, behind IDs that are drawn first.
struct Drawn {
    first: Vec<u8>,
    random: Random,
}

impl Drawn {
    fn new(ids: &[u64]) -> Self {
        Self {
            first: ids.iter().flat_map(|id| id.to_be_bytes()).collect(),
            random: Random(7),
        }
    }
}

impl Read for Drawn {
    fn read(&mut self, out: &mut [u8]) -> io::Result<usize> {
        for byte in &mut *out {
            *byte = match self.first.is_empty() {
                true => self.random.next() as u8,
                false => self.first.remove(0),
            };
        }
        Ok(out.len())
    }
}

/// A server, and what its clients remember of it.
struct Server {
    method: Method,
    clients: Table,
    replies: Replies,
    remembered: Table,
}

impl Server {
    fn new(method: Method) -> Self {
        Self {
            method,
            clients: Table::new(60).unwrap(),
            replies: Replies::new(),
            remembered: Table::new(60).unwrap(),
        }
    }

    fn hear(&mut self, client: u64, packet_id: u64, clock: u64) {
        let datagram = sealed(self.method, client, packet_id, clock);
        open(&mut self.clients, self.method, clock, &datagram).unwrap();
    }

    fn seal(
        &mut self,
        client: u64,
        clock: u64,
        random: &mut impl Read,
    ) -> io::Result<Option<(Vec<u8>, Peer)>> {
        let mut out = [FILL; 128];
        let (key, source) = (key(self.method), short_address());
        let clients = &self.clients;
        let sealed = self.replies.seal(
            &key, clients, clock, client, &source, b"answer", random, &mut out,
        )?;
        Ok(sealed.map(|(length, peer)| (out[..length].to_vec(), peer)))
    }

    /// A reply as the client sees it.
    fn reply(&mut self, client: u64, clock: u64, random: &mut impl Read) -> Header {
        let (datagram, to) = self.seal(client, clock, random).unwrap().unwrap();
        assert_eq!(to, peer());
        let mut plaintext = [0; 128];
        let from = Peer::from(SocketAddr::from(([198, 51, 100, 1], 8_388)));
        let key = key(self.method);
        let header = self
            .remembered
            .open_client(&key, clock, client, from, &datagram, &mut plaintext)
            .unwrap();
        assert_eq!(header.payload(&plaintext), b"answer");
        assert_eq!(header.address(&plaintext), short_address());
        header
    }

    /// Session ID and packet ID of a reply.
    fn ids(&mut self, client: u64, clock: u64, random: &mut impl Read) -> (u64, u64) {
        let header = self.reply(client, clock, random);
        (header.session_id, header.packet_id)
    }
}

#[test]
fn replies_to_a_client_are_one_session() {
    for method in Method::ALL {
        let (mut server, mut random) = (Server::new(method), Drawn::new(&[100]));
        assert!(server.seal(1, CLOCK, &mut random).unwrap().is_none());
        server.hear(1, 0, CLOCK);
        server.hear(2, 0, CLOCK);
        assert_eq!(server.ids(1, CLOCK, &mut random), (100, 0));
        let other = server.ids(2, CLOCK, &mut Drawn::new(&[200]));
        assert_eq!(other, (200, 0));
        for packet_id in 1..5 {
            assert_eq!(server.ids(1, CLOCK, &mut random), (100, packet_id));
        }
        assert_eq!(server.ids(2, CLOCK, &mut random), (200, 1));
    }
}

#[test]
fn an_id_that_somebody_has_is_drawn_again() {
    for method in Method::ALL {
        let mut server = Server::new(method);
        for client in 1..=3 {
            server.hear(client, 0, CLOCK);
        }
        // Its own client's, another client's.
        let begun = server.ids(1, CLOCK, &mut Drawn::new(&[1, 2, 3, 100]));
        assert_eq!(begun, (100, 0));
        // That of another reply session.
        let begun = server.ids(2, CLOCK, &mut Drawn::new(&[100, 200]));
        assert_eq!(begun, (200, 0));
    }
}

/// With AES two texts would be sealed under one nonce.
#[test]
fn an_id_that_a_client_takes_is_given_up() {
    for method in Method::ALL {
        let mut server = Server::new(method);
        server.hear(1, 0, CLOCK);
        assert_eq!(server.ids(1, CLOCK, &mut Drawn::new(&[100])), (100, 0));
        server.hear(100, 0, CLOCK);
        let begun = server.ids(1, CLOCK, &mut Drawn::new(&[100, 101]));
        assert_eq!(begun, (101, 0));
        assert_eq!(server.ids(1, CLOCK, &mut Drawn::new(&[])), (101, 1));
    }
}

/// Even if nothing was sealed while the client was alive.
#[test]
fn an_id_that_a_client_had_is_given_up() {
    let mut server = Server::new(Method::Aes128Gcm);
    server.hear(1, 0, CLOCK);
    assert_eq!(server.ids(1, CLOCK, &mut Drawn::new(&[100])), (100, 0));
    server.hear(100, 0, CLOCK);
    server.replies.renew(100);
    server.hear(1, 1, CLOCK + 40);
    let clock = CLOCK + 61;
    assert!(server.clients.session(100, clock).is_none());
    assert_eq!(server.ids(1, clock, &mut Drawn::new(&[101])), (101, 0));
}

#[test]
fn a_session_is_renewed_and_forgotten() {
    let mut server = Server::new(Method::Aes128Gcm);
    server.hear(1, 0, CLOCK);
    server.hear(2, 0, CLOCK);
    let mut random = Drawn::new(&[100, 200, 101, 102]);
    assert_eq!(server.ids(1, CLOCK, &mut random), (100, 0));
    assert_eq!(server.ids(2, CLOCK, &mut random), (200, 0));
    server.replies.renew(1);
    server.replies.renew(9);
    assert_eq!(server.ids(1, CLOCK, &mut random), (101, 0));
    server.hear(2, 1, CLOCK + 30);
    server.replies.forget(&server.clients, CLOCK + 60);
    assert_eq!(server.ids(1, CLOCK + 60, &mut random), (101, 1));
    // The first one is not alive, and is begun anew when it is heard again.
    assert!(server.seal(1, CLOCK + 61, &mut random).unwrap().is_none());
    server.replies.forget(&server.clients, CLOCK + 61);
    assert_eq!(server.ids(2, CLOCK + 61, &mut random), (200, 1));
    server.hear(1, 0, CLOCK + 61);
    assert_eq!(server.ids(1, CLOCK + 61, &mut random), (102, 0));
}

#[test]
fn room_is_made_by_those_who_are_gone() {
    let (mut server, mut random) = (Server::new(Method::Aes256Gcm), Drawn::new(&[]));
    for round in 0..5 {
        let clock = CLOCK + 61 * round;
        server.remembered = Table::new(60).unwrap();
        for client in 0..64 {
            server.hear(64 * round + client, 0, clock);
            let (_, packet_id) = server.ids(64 * round + client, clock, &mut random);
            assert_eq!(packet_id, 0);
        }
        for client in 0..64 {
            let (_, packet_id) = server.ids(64 * round + client, clock, &mut random);
            assert_eq!(packet_id, 1);
        }
    }
}

#[test]
fn random_bytes_that_fail() {
    for method in Method::ALL {
        let mut server = Server::new(method);
        server.hear(0, 0, CLOCK);
        let error = server.seal(0, CLOCK, &mut io::repeat(0)).unwrap_err();
        assert_eq!((error.kind(), refusal(&error)), (ErrorKind::Other, None));
        let error = server.seal(0, CLOCK, &mut &[1; 7][..]).unwrap_err();
        assert_eq!(error.kind(), ErrorKind::UnexpectedEof);
        // An ID, but no nonce.
        let sealed = server.seal(0, CLOCK, &mut &[1; 8][..]);
        assert_eq!(sealed.is_ok(), !method.takes_nonce());
        let (_, packet_id) = server.ids(0, CLOCK, &mut Drawn::new(&[]));
        assert_eq!(packet_id, u64::from(!method.takes_nonce()));
    }
}

#[test]
fn what_may_not_be_sealed_is_refused_and_takes_no_packet_id() {
    for method in Method::ALL {
        let (mut server, mut random) = (Server::new(method), Drawn::new(&[]));
        server.hear(1, 0, CLOCK);
        let (key, source) = (key(method), short_address());
        for (length, room, expected) in [(65_507, 70_000, Refusal::Length), (9, 9, Refusal::Room)] {
            let (payload, mut out) = (payload(length), vec![FILL; room]);
            let clients = &server.clients;
            let sealed = server.replies.seal(
                &key,
                clients,
                CLOCK,
                1,
                &source,
                &payload,
                &mut random,
                &mut out,
            );
            assert_eq!(refusal(&sealed.unwrap_err()), Some(expected));
            assert!(out.iter().all(|&byte| byte == FILL));
        }
        assert_eq!(server.reply(1, CLOCK, &mut random).packet_id, 0);
        // A table from elsewhere, with the client in it and an unlawful retention.
        let mut words = *server.clients.words();
        words[0] = 59;
        server.clients = Table::from_words(&words);
        server.replies = Replies::new();
        let error = server.seal(1, CLOCK, &mut random).unwrap_err();
        assert_eq!(refusal(&error), Some(Refusal::Settings));
    }
}
