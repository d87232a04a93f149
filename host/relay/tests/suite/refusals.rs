//! Every refusal is reached, by number.

use relay::stream::{Opening, Sealing};
use relay::{
    Address, Key, Method, Pool, Refusal, RequestStream, ResponseStream, SealSession, Table,
    MAX_DATAGRAM,
};

use crate::common::*;
use crate::plain;

/// The number, for a refusal.
fn number<T>(result: Result<T, impl Into<Refusal>>) -> Option<u64> {
    result.err().map(|error| error.into().number())
}

fn new_table() -> Table {
    Table::new(60).unwrap()
}

/// The next method by number, and behind the last the first.
fn other(method: Method) -> Method {
    Method::from_number(method.number() + 1).unwrap_or(Method::ALL[0])
}

/// The words of a stream whose subkey is zero.
fn words(turn: u64, method: Method, counter: u64, length: u64) -> [u64; 8] {
    [turn, method.number(), counter, length, 0, 0, 0, 0]
}

/// Opens a client's datagram of a plaintext.
fn open_body(method: Method, body: &[u8]) -> Option<u64> {
    let datagram = datagram_of(method, CLIENT_ID, 0, body);
    number(open(&mut new_table(), method, CLOCK, &datagram))
}

/// Opens a server's datagram of a plaintext, as the client of the ID.
fn open_reply(method: Method, body: &[u8]) -> Option<u64> {
    let datagram = datagram_of(method, SERVER_ID, 0, body);
    let (mut table, mut out) = (new_table(), vec![0; datagram.len()]);
    number(table.open_client(&key(method), CLOCK, CLIENT_ID, peer(), &datagram, &mut out))
}

/// Opens a request of these headers.
fn open_headers(method: Method, fixed: &[u8], variable: &[u8]) -> Option<u64> {
    let head = head_of(method, fixed, variable);
    let (mut pool, mut out) = (Pool::new(method), vec![0; 1_000]);
    number(open_request(
        &key(method),
        CLOCK,
        &head,
        &mut pool,
        &mut out,
    ))
}

/// Opens a request of this variable header.
fn open_variable(method: Method, variable: &[u8]) -> Option<u64> {
    open_headers(
        method,
        &plain::fixed_header(0, CLOCK, variable.len()),
        variable,
    )
}

fn seal_request(
    method: Method,
    salt: &[u8],
    padding: usize,
    text: &[u8],
    out: &mut [u8],
) -> Option<u64> {
    number(RequestStream::seal(
        &key(method),
        salt,
        CLOCK,
        &short_address(),
        padding,
        text,
        out,
    ))
}

/// A response to the request of the common salt, opened for another's.
fn open_response(method: Method, request_salt: &[u8], clock: u64, forge: bool) -> Option<u64> {
    let mut out = [0; 256];
    let own_salt = &OTHER_SALT[..method.salt_len()];
    ResponseStream::seal(&key(method), own_salt, salt(method), CLOCK, b"x", &mut out).unwrap();
    out[20] ^= u8::from(forge);
    number(ResponseStream::open(
        &key(method),
        clock,
        request_salt,
        &out,
    ))
}

#[test]
fn number_1_settings() {
    assert_eq!(number(Table::new(59)), Some(1));
    for method in Method::ALL {
        for length in [0, 15, 17, 31].into_iter().chain(33..=40) {
            assert_eq!(number(Key::new(method, &vec![7; length])), Some(1));
        }
        let datagram = sealed(method, CLIENT_ID, 0, CLOCK);
        for retention in [0, 59, 3_601, u64::MAX] {
            let mut words = *new_table().words();
            words[0] = retention;
            let mut table = Table::from_words(&words);
            assert_eq!(number(open(&mut table, method, CLOCK, &datagram)), Some(1));
            // It stands before every other refusal.
            assert_eq!(number(open(&mut table, method, CLOCK, &[])), Some(1));
        }
        let mut pool = Pool::new(other(method));
        let opened = RequestStream::open(&key(method), CLOCK, &[], &mut pool);
        assert_eq!(number(opened), Some(1));
    }
}

#[test]
fn number_1_settings_of_salts() {
    for method in Method::ALL {
        let mut out = [0; 256];
        let lengths = [0, 15, 16, 17, 31, 32].into_iter();
        for length in lengths.filter(|&length| length != method.salt_len()) {
            let (salt, wrong) = (salt(method), &SALT[..length]);
            assert_eq!(seal_request(method, wrong, 1, b"", &mut out), Some(1));
            assert_eq!(open_response(method, wrong, CLOCK, false), Some(1));
            for (own, request) in [(salt, wrong), (wrong, salt)] {
                let sealed = ResponseStream::seal(&key(method), own, request, CLOCK, b"", &mut out);
                assert_eq!(number(sealed), Some(1));
            }
        }
    }
}

/// Before an ID that is unlawful, a counter that is used up, a length and a room.
#[test]
fn number_1_settings_of_nonces() {
    for method in Method::ALL {
        let words = [1, CLIENT_ID, CLIENT_ID, u64::MAX];
        let mut session = SealSession::from_words(&words);
        let (key, address) = (key(method), short_address());
        let sealed = session.seal(&key, None, CLOCK, &address, 70_000, b"", &mut []);
        let expected = if method.takes_nonce() { 1 } else { 12 };
        assert_eq!(number(sealed), Some(expected));
        assert_eq!(session.words(), &words);
    }
}

#[test]
fn number_2_length() {
    for method in Method::ALL {
        let shortest = method.datagram_overhead();
        for length in [0, 16, shortest - 1, MAX_DATAGRAM + 1, 70_000] {
            let opened = open(&mut new_table(), method, CLOCK, &vec![0; length]);
            assert_eq!(number(opened), Some(2));
        }
        for length in [shortest, MAX_DATAGRAM] {
            let opened = open(&mut new_table(), method, CLOCK, &vec![0; length]);
            assert_eq!(number(opened), Some(4));
        }
        let mut out = vec![0; 70_000];
        let (_, mut stream) = begun_request(method);
        assert_eq!(number(stream.seal_chunk(&[0; 65_536], &mut out)), Some(2));
        assert_eq!(
            seal_request(method, salt(method), 0, &[0; 65_529], &mut out),
            Some(2)
        );
        let own_salt = &OTHER_SALT[..method.salt_len()];
        let sealed = ResponseStream::seal(
            &key(method),
            own_salt,
            salt(method),
            CLOCK,
            &[0; 65_536],
            &mut out,
        );
        assert_eq!(number(sealed), Some(2));
    }
}

/// A request's bytes and the stream that sealed them.
fn begun_request(method: Method) -> (Vec<u8>, RequestStream<Sealing>) {
    let mut out = vec![0; 256];
    let (stream, length) = RequestStream::seal(
        &key(method),
        salt(method),
        CLOCK,
        &short_address(),
        1,
        b"",
        &mut out,
    )
    .unwrap();
    out.truncate(length);
    (out, stream)
}

#[test]
fn number_3_room() {
    for method in Method::ALL {
        let datagram = sealed(method, CLIENT_ID, 0, CLOCK);
        let mut out = vec![0; datagram.len() - method.datagram_overhead() - 1];
        let opened = new_table().open_server(&key(method), CLOCK, peer(), &datagram, &mut out);
        assert_eq!(number(opened), Some(3));
        let (mut session, address) = (SealSession::client(CLIENT_ID), short_address());
        let mut out = vec![0; session.sealed_len(method, &address, 0, 0).unwrap() - 1];
        let (key, nonce) = (key(method), nonce(method));
        let sealed = session.seal(&key, nonce, CLOCK, &address, 0, b"", &mut out);
        assert_eq!(number(sealed), Some(3));
        let (head, mut stream) = begun_request(method);
        assert_eq!(number(stream.seal_chunk(b"x", &mut [0; 34])), Some(3));
        assert_eq!(
            seal_request(method, salt(method), 1, b"", &mut [0; 66]),
            Some(3)
        );
        let mut pool = Pool::new(method);
        let opened = open_request(&key, CLOCK, &head, &mut pool, &mut [0; 7]);
        assert_eq!(number(opened), Some(3));
    }
}

#[test]
fn number_4_not_authentic() {
    for method in Method::ALL {
        let datagram = sealed(method, CLIENT_ID, 0, CLOCK);
        let opened = open(&mut new_table(), other(method), CLOCK, &datagram);
        assert_eq!(number(opened), Some(4));
        assert_eq!(open_response(method, salt(method), CLOCK, true), Some(4));
        let mut ended = RequestStream::<Opening>::from_words(&words(0, method, 0, 0));
        assert_eq!(number(ended.open_chunk(&[], &mut [])), Some(4));
        let mut ended = RequestStream::<Sealing>::from_words(&words(0, method, 0, 0));
        assert_eq!(number(ended.seal_chunk(b"text", &mut [])), Some(4));
    }
}

#[test]
fn number_5_malformed() {
    for method in Method::ALL {
        malformed_datagrams(method);
        malformed_replies(method);
        malformed_requests(method);
    }
}

fn malformed_datagrams(method: Method) {
    let address = short_address();
    let address = address.as_bytes();
    let good = plain::client_header(0, CLOCK, 0);
    // Under 11 bytes, whatever the type; no address; one that does not end.
    assert_eq!(open_body(method, &[]), Some(5));
    assert_eq!(open_body(method, &[9; 10]), Some(5));
    assert_eq!(open_body(method, &good), Some(5));
    let unended = [&good, &address[..4]].concat();
    assert_eq!(open_body(method, &unended), Some(5));
    assert_eq!(open_body(method, &[&good, address].concat()), None);
    // Padding up to the address, past it, and past the end.
    for (padding, refused) in [(5, None), (6, Some(5)), (10, Some(5)), (65_535, Some(5))] {
        let header = plain::client_header(0, CLOCK, padding);
        let body = [&header, &[0; 5][..], address].concat();
        assert_eq!(open_body(method, &body), refused, "padding {padding}");
    }
}

fn malformed_replies(method: Method) {
    // Under 19 bytes.
    assert_eq!(open_reply(method, &[9; 18]), Some(5));
    let short = plain::server_header(1, CLOCK, CLIENT_ID, 0);
    assert_eq!(open_reply(method, &short), Some(5));
    let whole = [&short, short_address().as_bytes()].concat();
    assert_eq!(open_reply(method, &whole), None);
}

/// No address, no padding's length, padding that does not end, padding 0 without a payload.
fn malformed_requests(method: Method) {
    assert_eq!(open_variable(method, &[]), Some(5));
    for (rest, refused) in [
        (&[][..], Some(5)),
        (&[0], Some(5)),
        (&[0, 0], Some(5)),
        (&[0, 1], Some(5)),
        (&[0, 1, 0], None),
        (&[0, 0, 0], None),
    ] {
        let variable = [short_address().as_bytes(), rest].concat();
        assert_eq!(open_variable(method, &variable), refused, "{rest:?}");
    }
}

#[test]
fn number_6_type() {
    let address = short_address();
    let address = address.as_bytes();
    for (method, kind) in methods_and_types() {
        let refused = (kind != 0).then_some(6);
        let body = [&plain::client_header(kind, CLOCK, 0), address].concat();
        assert_eq!(open_body(method, &body), refused, "type {kind}");
        let variable = [address, &[0, 1, 0]].concat();
        let fixed = plain::fixed_header(kind, CLOCK, variable.len());
        let opened = open_headers(method, &fixed, &variable);
        assert_eq!(opened, refused, "type {kind}");

        let refused = (kind != 1).then_some(6);
        let header = plain::server_header(kind, CLOCK, CLIENT_ID, 0);
        let opened = open_reply(method, &[&header, address].concat());
        assert_eq!(opened, refused, "type {kind}");
    }
}

fn methods_and_types() -> impl Iterator<Item = (Method, u8)> {
    let methods = Method::ALL.into_iter();
    methods.flat_map(|method| (0..=255).map(move |kind| (method, kind)))
}

#[test]
fn number_7_time() {
    for method in Method::ALL {
        let address = short_address();
        for (timestamp, refused) in [(969, Some(7)), (970, None), (1_030, None), (1_031, Some(7))] {
            let header = plain::client_header(0, timestamp, 0);
            assert_eq!(
                open_body(method, &[&header, address.as_bytes()].concat()),
                refused
            );
            let header = plain::server_header(1, timestamp, CLIENT_ID, 0);
            assert_eq!(
                open_reply(method, &[&header, address.as_bytes()].concat()),
                refused
            );
            let variable = [address.as_bytes(), &[0, 1, 0]].concat();
            let fixed = plain::fixed_header(0, timestamp, variable.len());
            assert_eq!(open_headers(method, &fixed, &variable), refused);
        }
        assert_eq!(open_response(method, salt(method), CLOCK + 30, false), None);
        assert_eq!(
            open_response(method, salt(method), CLOCK + 31, false),
            Some(7)
        );
    }
}

#[test]
fn number_8_replay() {
    for method in Method::ALL {
        let mut table = new_table();
        let datagram = sealed(method, CLIENT_ID, 0, CLOCK);
        assert_eq!(number(open(&mut table, method, CLOCK, &datagram)), None);
        assert_eq!(number(open(&mut table, method, CLOCK, &datagram)), Some(8));
        let (head, _) = begun_request(method);
        let mut pool = Pool::new(method);
        for refused in [None, Some(8)] {
            let opened = RequestStream::open(&key(method), CLOCK, &head, &mut pool);
            assert_eq!(number(opened), refused);
        }
    }
}

#[test]
fn number_9_full() {
    for method in Method::ALL {
        let mut words = [1; Table::WORDS];
        words[0] = 60;
        for record in words[1..].chunks_mut(13) {
            record[3] = CLOCK;
        }
        let mut table = Table::from_words(&words);
        let datagram = sealed(method, CLIENT_ID, 0, CLOCK);
        assert_eq!(number(open(&mut table, method, CLOCK, &datagram)), Some(9));
        let mut words = [1; Pool::WORDS];
        words[0] = method.number();
        let mut pool = Pool::from_words(&words);
        let (head, _) = begun_request(method);
        let opened = RequestStream::open(&key(method), CLOCK, &head, &mut pool);
        assert!(opened.is_ok(), "salts of time 1 are forgotten");
        for record in words[1..].chunks_mut(6) {
            record[1] = CLOCK;
        }
        let mut pool = Pool::from_words(&words);
        let opened = RequestStream::open(&key(method), CLOCK, &head, &mut pool);
        assert_eq!(number(opened), Some(9));
    }
}

#[test]
fn number_10_more() {
    for method in Method::ALL {
        let front = method.salt_len() + 27;
        let mut pool = Pool::new(method);
        let opened = RequestStream::open(&key(method), CLOCK, &[], &mut pool);
        assert_eq!(opened.unwrap_err(), Refusal::More { wanted: front });
        let opened = ResponseStream::open(&key(method), CLOCK, salt(method), &[]);
        let wanted = front + method.salt_len();
        assert_eq!(opened.unwrap_err(), Refusal::More { wanted });

        let (head, _) = begun_request(method);
        let mut out = [0; 64];
        let opened = RequestStream::open(&key(method), CLOCK, &head[..front], &mut pool);
        let (mut stream, _) = opened.unwrap();
        let refused = stream.open_variable(&[], &mut out);
        let wanted = head.len() - front;
        assert_eq!(refused, Err(Refusal::More { wanted }));
        stream.open_variable(&head[front..], &mut out).unwrap();
        let refused = stream.open_chunk(&[0; 17], &mut out);
        assert_eq!(refused, Err(Refusal::More { wanted: 18 }));
        let mut stream = RequestStream::<Opening>::from_words(&words(2, method, 0, 65_535));
        let refused = stream.open_chunk(&[0; 1_000], &mut out);
        assert_eq!(refused, Err(Refusal::More { wanted: 65_551 }));
    }
}

#[test]
fn number_11_counter() {
    for method in Method::ALL {
        let last = u64::MAX;
        let mut session = SealSession::from_words(&[0, CLIENT_ID, 0, last]);
        // Before a length and a room that would be refused too.
        let (key, nonce, address) = (key(method), nonce(method), short_address());
        let sealed = session.seal(&key, nonce, CLOCK, &address, 70_000, b"", &mut []);
        assert_eq!(number(sealed), Some(11));
        for (counter, refused) in [(last - 2, None), (last - 1, Some(11)), (last, Some(11))] {
            let mut stream = RequestStream::<Sealing>::from_words(&words(3, method, counter, 0));
            assert_eq!(number(stream.seal_chunk(b"x", &mut [0; 35])), refused);
        }
        for (counter, refused) in [(last - 1, Some(10)), (last, Some(11))] {
            let mut stream = RequestStream::<Opening>::from_words(&words(1, method, counter, 0));
            assert_eq!(number(stream.open_chunk(&[], &mut [])), refused);
        }
    }
}

#[test]
fn number_12_argument() {
    for method in Method::ALL {
        let mut table = new_table();
        let own = SealSession::server(CLIENT_ID, CLIENT_ID, CLOCK, &table);
        assert_eq!(number(own), Some(12));
        // An ID that another client has.
        let datagram = sealed(method, 9, 0, CLOCK);
        assert_eq!(number(open(&mut table, method, CLOCK, &datagram)), None);
        let taken = SealSession::server(9, CLIENT_ID, CLOCK, &table);
        assert_eq!(number(taken), Some(12));
        // 1 comes first.
        let mut words = *table.words();
        words[0] = 59;
        let unlawful = SealSession::server(9, 9, CLOCK, &Table::from_words(&words));
        assert_eq!(number(unlawful), Some(1));
        // A client's session has no other ID to differ from.
        for (side, refused) in [(1, Some(12)), (0, None)] {
            let mut session = SealSession::from_words(&[side, CLIENT_ID, CLIENT_ID, 0]);
            let (key, nonce, address) = (key(method), nonce(method), short_address());
            let sealed = session.seal(&key, nonce, CLOCK, &address, 0, b"", &mut [0; 128]);
            assert_eq!(number(sealed), refused);
        }
        assert_eq!(number(Address::name(b"", 80)), Some(12));
        assert_eq!(number(Address::from_bytes(&[3, 0, 0, 80])), Some(12));
        for (padding, text) in [(0, &b""[..]), (901, b"text"), (usize::MAX, b"text")] {
            let refused = seal_request(method, salt(method), padding, text, &mut [0; 1_100]);
            assert_eq!(refused, Some(12));
        }
    }
}

#[test]
fn number_13_binding() {
    for method in Method::ALL {
        assert_eq!(
            open_response(method, &OTHER_SALT[..method.salt_len()], CLOCK, false),
            Some(13)
        );
        // Another client's with broken padding is 13 as well.
        for padding in [0, 9_000] {
            let header = plain::server_header(1, CLOCK, CLIENT_ID + 1, padding);
            let body = [&header, short_address().as_bytes()].concat();
            assert_eq!(open_reply(method, &body), Some(13));
        }
    }
}

#[test]
fn number_14_empty() {
    for method in Method::ALL {
        // Behind the settings, and before a counter that is used up, a room that is
        // too short and a stream that has ended.
        for (turn, counter) in [(3, 2), (3, u64::MAX), (0, 2)] {
            let words = words(turn, method, counter, 0);
            let mut stream = RequestStream::<Sealing>::from_words(&words);
            assert_eq!(number(stream.seal_chunk(b"", &mut [])), Some(14));
        }
        let salts = (salt(method), &OTHER_SALT[..method.salt_len()]);
        let sealed = ResponseStream::seal(&key(method), salts.0, salts.1, CLOCK, b"", &mut []);
        assert_eq!(number(sealed), Some(14));
        let length = ResponseStream::<Sealing>::sealed_len(method, 0);
        assert_eq!(length, Err(Refusal::Empty));
        // A lent stream at a payload of 0 bytes is none that was ever written.
        let mut lent = RequestStream::<Opening>::from_words(&words(2, method, 2, 0));
        assert_eq!(number(lent.open_chunk(&[0; 16], &mut [])), Some(1));
    }
    for no_method in [0, 6, 11, 256 + 3] {
        let mut none = RequestStream::<Sealing>::from_words(&[3, no_method, 2, 0, 0, 0, 0, 0]);
        assert_eq!(number(none.seal_chunk(b"", &mut [])), Some(1));
    }
    let length = RequestStream::<Sealing>::sealed_chunk_len(0);
    assert_eq!(length, Err(Refusal::Empty));
}
