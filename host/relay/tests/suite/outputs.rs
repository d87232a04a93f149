//! What a call leaves in the output buffer.

use relay::{Method, Pool, Refusal, RequestStream, ResponseStream, SealSession, Table};

use crate::common::*;
use crate::plain;

/// Longer than any datagram here, to see what is written behind the bytes due.
const ROOM: usize = 256;

/// What opening a client's datagram leaves in a buffer of `room` bytes.
fn left(
    method: Method,
    table: &mut Table,
    clock: u64,
    datagram: &[u8],
    room: usize,
) -> (Result<(), Refusal>, Vec<u8>) {
    let mut out = vec![FILL; room];
    let opened = table.open_server(&key(method), clock, peer(), datagram, &mut out);
    (opened.map(|_| ()), out)
}

/// So many zeros, and the rest as it was.
fn zeroed(due: usize) -> Vec<u8> {
    let mut out = vec![FILL; ROOM];
    out[..due].fill(0);
    out
}

fn datagram(method: Method, body: &[u8]) -> Vec<u8> {
    datagram_of(method, CLIENT_ID, 0, body)
}

/// How long a datagram's plaintext is.
fn due(method: Method, datagram: &[u8]) -> usize {
    datagram.len() - method.datagram_overhead()
}

/// A body with a good header and an address of its own.
fn body(kind: u8, timestamp: u64, padding: u16, address: &[u8]) -> Vec<u8> {
    [&plain::client_header(kind, timestamp, padding), address].concat()
}

#[test]
fn an_accepted_datagram_writes_its_plaintext_and_no_more() {
    for method in Method::ALL {
        let mut text = body(0, CLOCK, 0, short_address().as_bytes());
        text.extend(b"payload");
        if method.takes_nonce() {
            // The IDs are a part of the plaintext.
            text.splice(0..0, [CLIENT_ID, 0].map(u64::to_be_bytes).concat());
        }
        let datagram = datagram(method, &text[before_main_header(method)..]);
        let mut table = Table::new(60).unwrap();
        let (opened, out) = left(method, &mut table, CLOCK, &datagram, ROOM);
        assert_eq!(opened, Ok(()));
        assert_eq!(due(method, &datagram), text.len());
        assert_eq!(out[..text.len()], text);
        assert!(out[text.len()..].iter().all(|&byte| byte == FILL));
    }
}

#[test]
fn refusals_before_the_tag_leave_the_output() {
    for method in Method::ALL {
        let good = sealed(method, CLIENT_ID, 0, CLOCK);
        let mut table = Table::new(60).unwrap();

        let short = &good[..method.datagram_overhead() - 1];
        let (opened, out) = left(method, &mut table, CLOCK, short, ROOM);
        assert_eq!(opened, Err(Refusal::Length));
        assert_eq!(out, vec![FILL; ROOM]);

        for room in 0..due(method, &good) {
            let (opened, out) = left(method, &mut table, CLOCK, &good, room);
            assert_eq!(opened, Err(Refusal::Room));
            assert_eq!(out, vec![FILL; room]);
        }

        // Any bit, in the separate header or the nonce, the body or the tag.
        for bit in 0..8 * good.len() {
            let mut forged = good.clone();
            forged[bit / 8] ^= 1 << (bit % 8);
            let (opened, out) = left(method, &mut table, CLOCK, &forged, ROOM);
            assert_eq!(opened, Err(Refusal::NotAuthentic), "bit {bit}");
            assert_eq!(out, vec![FILL; ROOM]);
        }

        let mut faulty = Table::from_words(&[0; Table::WORDS]);
        let (opened, out) = left(method, &mut faulty, CLOCK, &good, ROOM);
        assert_eq!(opened, Err(Refusal::Settings));
        assert_eq!(out, vec![FILL; ROOM]);

        // None of them took the packet ID.
        assert_eq!(left(method, &mut table, CLOCK, &good, ROOM).0, Ok(()));
    }
}

#[test]
fn refusals_after_the_tag_zero_the_plaintext() {
    let address = short_address();
    let address = address.as_bytes();
    let cases = [
        (body(0, CLOCK, 0, &[])[..10].to_vec(), Refusal::Malformed),
        (body(1, CLOCK, 0, address), Refusal::Type),
        (body(0, CLOCK + 31, 0, address), Refusal::Time),
        (body(0, CLOCK, 6, address), Refusal::Malformed),
        (body(0, CLOCK, 0, &address[..4]), Refusal::Malformed),
        (
            body(0, CLOCK, 0, &[2, 1, 2, 3, 4, 0, 80]),
            Refusal::Malformed,
        ),
    ];
    for method in Method::ALL {
        let mut table = Table::new(60).unwrap();
        for (text, refusal) in &cases {
            let datagram = datagram(method, text);
            let (opened, out) = left(method, &mut table, CLOCK, &datagram, ROOM);
            assert_eq!(opened, Err(*refusal));
            assert_eq!(out, zeroed(due(method, &datagram)));
        }
        assert_eq!(table.sessions(CLOCK).count(), 0);

        let datagram = datagram(method, &body(0, CLOCK, 0, address));
        let (opened, _) = left(method, &mut table, CLOCK, &datagram, ROOM);
        assert_eq!(opened, Ok(()));
        let (opened, out) = left(method, &mut table, CLOCK, &datagram, ROOM);
        assert_eq!(opened, Err(Refusal::Replay));
        assert_eq!(out, zeroed(due(method, &datagram)));
    }
}

#[test]
fn a_full_table_and_another_clients_datagram_zero_the_plaintext() {
    for method in Method::ALL {
        let mut table = Table::new(60).unwrap();
        for id in 0..64 {
            open(&mut table, method, CLOCK, &sealed(method, id, 0, CLOCK)).unwrap();
        }
        let newcomer = sealed(method, CLIENT_ID, 0, CLOCK);
        let (opened, out) = left(method, &mut table, CLOCK, &newcomer, ROOM);
        assert_eq!(opened, Err(Refusal::Full));
        assert_eq!(out, zeroed(due(method, &newcomer)));

        let (mut session, mut reply) = (reply_session(), vec![0; ROOM]);
        let (key, nonce) = (key(method), nonce(method));
        let length = session.seal(&key, nonce, CLOCK, &short_address(), 0, b"", &mut reply);
        reply.truncate(length.unwrap());
        let (other, mut out) = (CLIENT_ID + 1, vec![FILL; ROOM]);
        let opened = table.open_client(&key, CLOCK, other, peer(), &reply, &mut out);
        assert_eq!(opened, Err(Refusal::Binding));
        assert_eq!(out, zeroed(due(method, &reply)));
    }
}

#[test]
fn refused_sealing_writes_nothing() {
    for method in Method::ALL {
        let mut session = SealSession::client(CLIENT_ID);
        let address = short_address();
        let length = session.sealed_len(method, &address, 3, 7).unwrap();
        let (key, text) = (key(method), b"payload");
        for room in 0..length {
            let mut out = vec![FILL; room];
            let refused = session.seal(&key, nonce(method), CLOCK, &address, 3, text, &mut out);
            assert_eq!(refused, Err(Refusal::Room));
            assert_eq!(out, vec![FILL; room]);
        }
        let mut out = vec![FILL; ROOM];
        if method.takes_nonce() {
            let refused = session.seal(&key, None, CLOCK, &address, 3, text, &mut out);
            assert_eq!(refused, Err(Refusal::Settings));
            assert_eq!(out, vec![FILL; ROOM]);
        }
        assert_eq!(session.next_packet(), 0);
        let sealed = session.seal(&key, nonce(method), CLOCK, &address, 3, text, &mut out);
        assert_eq!(sealed, Ok(length));
        assert!(out[length..].iter().all(|&byte| byte == FILL));
    }
}

/// A request's variable header, of the short address and a payload.
fn variable_header() -> Vec<u8> {
    [short_address().as_bytes(), &[0, 0], b"payload"].concat()
}

fn request_head(method: Method, variable: &[u8]) -> Vec<u8> {
    let fixed = plain::fixed_header(0, CLOCK, variable.len());
    head_of(method, &fixed, variable)
}

/// What opening a request's head leaves in a buffer of `room` bytes. The salt is
/// stored once the front is good.
fn left_by_request(method: Method, head: &[u8], room: usize) -> (Result<(), Refusal>, Vec<u8>) {
    let (mut pool, mut out) = (Pool::new(method), vec![FILL; room]);
    let front = RequestStream::open(&key(method), CLOCK, head, &mut Pool::new(method));
    let opened = open_request(&key(method), CLOCK, head, &mut pool, &mut out);
    assert_eq!(pool.kept(CLOCK), usize::from(front.is_ok()));
    (opened.map(|_| ()), out)
}

#[test]
fn a_request_writes_its_variable_header_and_no_more() {
    for method in Method::ALL {
        let mut variable = variable_header();
        let (opened, out) = left_by_request(method, &request_head(method, &variable), ROOM);
        assert_eq!(opened, Ok(()));
        assert_eq!(out[..variable.len()], variable);
        assert!(out[variable.len()..].iter().all(|&byte| byte == FILL));

        // A malformed one is the only one that is refused and touches the output.
        variable[0] = 5;
        let (opened, out) = left_by_request(method, &request_head(method, &variable), ROOM);
        assert_eq!(opened, Err(Refusal::Malformed));
        assert_eq!(out, zeroed(variable.len()));
    }
}

#[test]
fn other_refusals_of_a_request_leave_the_output() {
    for method in Method::ALL {
        let variable = variable_header();
        let head = request_head(method, &variable);
        let fixed_part = method.salt_len() + 11 + 16;
        for length in 0..head.len() {
            let (opened, out) = left_by_request(method, &head[..length], ROOM);
            let wanted = if length < fixed_part {
                fixed_part
            } else {
                head.len() - fixed_part
            };
            assert_eq!(opened, Err(Refusal::More { wanted }));
            assert_eq!(out, vec![FILL; ROOM]);
        }
        for place in 0..head.len() {
            let mut forged = head.clone();
            forged[place] ^= 0x80;
            let (opened, out) = left_by_request(method, &forged, ROOM);
            assert_eq!(opened, Err(Refusal::NotAuthentic), "byte {place}");
            assert_eq!(out, vec![FILL; ROOM]);
        }
        let room = variable.len() - 1;
        let (opened, out) = left_by_request(method, &head, room);
        assert_eq!(opened, Err(Refusal::Room));
        assert_eq!(out, vec![FILL; room]);
    }
}

/// Whatever comes from the network: a refusal, and nothing is written.
#[test]
fn random_bytes_leave_everything_as_it_was() {
    for method in Method::ALL {
        let mut random = Random(6);
        let key = key(method);
        let mut out = vec![FILL; ROOM];
        let (mut table, mut pool) = (Table::new(60).unwrap(), Pool::new(method));
        let (words, salts) = (*table.words(), *pool.words());
        for length in 0..ROOM {
            let bytes = random.bytes(length);
            let refusals = [Refusal::Length, Refusal::NotAuthentic];
            let opened = table.open_server(&key, CLOCK, peer(), &bytes, &mut out);
            assert!(refusals.contains(&opened.unwrap_err()));
            let opened = table.open_client(&key, CLOCK, CLIENT_ID, peer(), &bytes, &mut out);
            assert!(refusals.contains(&opened.unwrap_err()));

            let opened = RequestStream::open(&key, CLOCK, &bytes, &mut pool);
            let wanted = method.salt_len() + 27;
            let refusals = [Refusal::More { wanted }, Refusal::NotAuthentic];
            assert!(refusals.contains(&opened.unwrap_err()));
            let opened = ResponseStream::open(&key, CLOCK, salt(method), &bytes);
            let wanted = 2 * method.salt_len() + 27;
            let refusals = [Refusal::More { wanted }, Refusal::NotAuthentic];
            assert!(refusals.contains(&opened.unwrap_err()));
        }
        assert_eq!(out, vec![FILL; ROOM]);
        assert_eq!((table.words(), pool.words()), (&words, &salts));
    }
}
