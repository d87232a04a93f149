//! Datagrams that are sealed and opened.

use relay::{Address, Method, Nonce, Refusal, SealSession, Table, Target, MAX_DATAGRAM};

use crate::common::*;
use crate::plain;

/// Padding and payload.
const LENGTHS: [(usize, usize); 8] = [
    (0, 0),
    (0, 1),
    (1, 15),
    (3, 16),
    (900, 17),
    (901, 1_400),
    (5_000, 0),
    (0, 9_000),
];

#[test]
fn a_clients_datagram_opens_at_the_server() {
    for method in Method::ALL {
        let mut session = SealSession::client(CLIENT_ID);
        let mut table = Table::new(60).unwrap();
        for address in addresses() {
            for (padding, length) in LENGTHS {
                let packet_id = session.next_packet();
                let text = payload(length);
                let datagram = seal(&mut session, method, &address, padding, &text);
                let mut out = vec![FILL; datagram.len() - method.datagram_overhead()];
                let header = table
                    .open_server(&key(method), CLOCK, peer(), &datagram, &mut out)
                    .unwrap();
                assert_eq!(header.session_id, CLIENT_ID);
                assert_eq!(header.packet_id, packet_id);
                assert_eq!(header.timestamp, CLOCK);
                assert_eq!(usize::from(header.padding), padding);
                assert_eq!(header.port, address.port());
                assert_eq!(header.address(&out), address);
                assert_eq!(header.payload.end, out.len());
                assert_eq!(header.payload(&out), text);
            }
        }
    }
}

#[test]
fn a_servers_datagram_opens_at_its_client() {
    for method in Method::ALL {
        let mut session = reply_session();
        let mut table = Table::new(3_600).unwrap();
        for address in addresses() {
            for (padding, length) in LENGTHS {
                let text = payload(length);
                let datagram = seal(&mut session, method, &address, padding, &text);
                let mut out = vec![FILL; datagram.len() - method.datagram_overhead()];
                let header = table
                    .open_client(&key(method), CLOCK, CLIENT_ID, peer(), &datagram, &mut out)
                    .unwrap();
                assert_eq!(header.session_id, SERVER_ID);
                assert_eq!(header.packet_id + 1, session.next_packet());
                assert_eq!(usize::from(header.padding), padding);
                assert_eq!(header.address(&out), address);
                assert_eq!(header.payload(&out), text);
            }
        }
        assert_eq!(table.peer_of(SERVER_ID, CLOCK), Some(peer()));
        assert_eq!(table.peer_of(CLIENT_ID, CLOCK), None);
    }
}

/// Seals into a buffer as long as `sealed_len` says.
fn seal(
    session: &mut SealSession,
    method: Method,
    address: &Address,
    padding: usize,
    text: &[u8],
) -> Vec<u8> {
    let length = session.sealed_len(method, address, padding, text.len());
    let length = length.unwrap();
    let mut out = vec![FILL; length];
    let (key, nonce) = (key(method), nonce(method));
    let sealed = session.seal(&key, nonce, CLOCK, address, padding, text, &mut out);
    assert_eq!(sealed, Ok(length));
    out
}

#[test]
fn sealed_datagrams_are_sip022s_byte_for_byte() {
    for method in Method::ALL {
        for address in addresses() {
            for (padding, length) in [(0, 0), (1, 15), (40, 100), (0, 1_400)] {
                let text = payload(length);
                let zeros = vec![0; padding];
                let rest = [&zeros, address.as_bytes(), &text].concat();

                let mut client = SealSession::from_words(&[0, CLIENT_ID, 0, 5]);
                let header = plain::client_header(0, CLOCK, padding as u16);
                let body = [header, rest.clone()].concat();
                assert_eq!(
                    seal(&mut client, method, &address, padding, &text),
                    datagram_of(method, CLIENT_ID, 5, &body)
                );

                let mut server = SealSession::from_words(&[1, SERVER_ID, CLIENT_ID, u64::MAX - 1]);
                let header = plain::server_header(1, CLOCK, CLIENT_ID, padding as u16);
                let body = [header, rest].concat();
                assert_eq!(
                    seal(&mut server, method, &address, padding, &text),
                    datagram_of(method, SERVER_ID, u64::MAX - 1, &body)
                );
            }
        }
    }
}

#[test]
fn targets_are_of_three_kinds() {
    for method in Method::ALL {
        let mut session = SealSession::client(CLIENT_ID);
        let mut table = Table::new(60).unwrap();
        let targets = addresses().into_iter().map(|address| {
            let datagram = seal(&mut session, method, &address, 2, b"");
            let header = open(&mut table, method, CLOCK, &datagram);
            header.unwrap().target
        });
        let targets: Vec<Target> = targets.collect();
        assert_eq!(targets[0], Target::V4([0, 0, 0, 0].into()));
        assert_eq!(targets[1], Target::V4([255, 254, 253, 252].into()));
        assert_eq!(targets[2], Target::V6("2001:db8::1:2".parse().unwrap()));
        assert_eq!(targets[3], Target::V6("::ffff:192.0.2.1".parse().unwrap()));
        // Behind type, time, padding's length, padding, kind and length.
        let place = before_main_header(method) + 1 + 8 + 2 + 2 + 1 + 1;
        assert_eq!(targets[4], Target::Name(place..place + 1));
        assert_eq!(targets[7], Target::Name(place..place + 255));
    }
}

/// The nonce stands first, and decides all bytes behind it.
#[test]
fn a_nonce_makes_another_datagram() {
    for method in Method::ALL {
        let sealed = [[1; 24], [2; 24]].map(|bytes| {
            let mut session = SealSession::client(CLIENT_ID);
            let (address, mut out) = (short_address(), vec![FILL; 128]);
            let nonce = Some(Nonce::new(bytes));
            let length = session.seal(&key(method), nonce, CLOCK, &address, 0, b"text", &mut out);
            out.truncate(length.unwrap());
            if method.takes_nonce() {
                assert_eq!(out[..24], bytes);
            }
            assert!(open(&mut Table::new(60).unwrap(), method, CLOCK, &out).is_ok());
            out
        });
        let [one, other] = sealed;
        // Methods 1 and 2 do not look at it.
        assert_eq!(one == other, !method.takes_nonce());
    }
}

/// Whoever takes its bytes for those of another method has none that authenticate.
#[test]
fn a_datagram_opens_with_its_own_method_alone() {
    for sender in Method::ALL {
        let datagram = sealed(sender, CLIENT_ID, 0, CLOCK);
        for receiver in Method::ALL {
            let opened = open(&mut Table::new(60).unwrap(), receiver, CLOCK, &datagram);
            let expected = (receiver != sender).then_some(Refusal::NotAuthentic);
            assert_eq!(opened.err(), expected, "{sender} opened as {receiver}");
        }
    }
}

#[test]
fn the_longest_datagram_is_sealed_and_opened() {
    for method in Method::ALL {
        let mut session = SealSession::client(CLIENT_ID);
        let address = short_address();
        let shortest = session.sealed_len(method, &address, 0, 0).unwrap();
        let text = payload(MAX_DATAGRAM - shortest);
        let datagram = seal(&mut session, method, &address, 0, &text);
        assert_eq!(datagram.len(), MAX_DATAGRAM);
        let mut table = Table::new(60).unwrap();
        let mut out = vec![FILL; MAX_DATAGRAM - method.datagram_overhead()];
        let header = table
            .open_server(&key(method), CLOCK, peer(), &datagram, &mut out)
            .unwrap();
        assert_eq!(header.payload(&out), text);

        // One byte more, as payload or as padding.
        let longer = payload(text.len() + 1);
        let (most, none) = (usize::MAX, Vec::new());
        let mut out = vec![FILL; 70_000];
        for (padding, text) in [(0, &longer), (1, &text), (65_536, &text), (most, &none)] {
            let (key, nonce) = (key(method), nonce(method));
            let refused = session.seal(&key, nonce, CLOCK, &address, padding, text, &mut out);
            assert_eq!(refused, Err(Refusal::Length));
            let length = session.sealed_len(method, &address, padding, text.len());
            assert_eq!(length, Err(Refusal::Length));
        }
        assert_eq!(
            session.sealed_len(method, &address, most, most),
            Err(Refusal::Length)
        );
        assert_eq!(session.next_packet(), 1);
    }
}

#[test]
fn a_sending_session_counts_its_packets() {
    let mut session = reply_session();
    assert_eq!(session.words(), &[1, SERVER_ID, CLIENT_ID, 0]);
    for packet_id in 0..10 {
        assert_eq!(session.next_packet(), packet_id);
        seal(
            &mut session,
            Method::Aes256Gcm,
            &short_address(),
            0,
            b"text",
        );
    }
    assert_eq!(session.id(), SERVER_ID);
    assert_eq!(session.client_id(), Some(CLIENT_ID));
    assert_eq!(SealSession::client(0).words(), &[0, 0, 0, 0]);
    assert_eq!(SealSession::client(0).client_id(), None);
}

#[test]
fn sessions_of_any_id_begin() {
    for method in Method::ALL {
        for id in [0, 1, u64::MAX] {
            let datagram = sealed(method, id, 0, CLOCK);
            let mut table = Table::new(60).unwrap();
            let header = open(&mut table, method, CLOCK, &datagram).unwrap();
            assert_eq!(header.session_id, id);
        }
    }
}
