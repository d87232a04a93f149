//! Streams that are sealed and opened.

use relay::stream::{Opening, Sealing, Stream};
use relay::{Address, Method, Pool, Refusal, RequestStream, ResponseStream, Step, MAX_CHUNK};

use crate::common::*;
use crate::plain;

/// Payloads of chunks.
const CHUNKS: [usize; 7] = [1, 2, 15, 16, 1_400, 16_384, MAX_CHUNK];

fn seal_request(
    method: Method,
    address: &Address,
    padding: usize,
    text: &[u8],
) -> (RequestStream<Sealing>, Vec<u8>) {
    let length =
        RequestStream::<Sealing>::sealed_len(method, address, padding, text.len()).unwrap();
    let mut out = vec![FILL; length];
    let (stream, sealed) = RequestStream::seal(
        &key(method),
        salt(method),
        CLOCK,
        address,
        padding,
        text,
        &mut out,
    )
    .unwrap();
    assert_eq!(sealed, length);
    (stream, out)
}

fn opened(method: Method, bytes: &[u8]) -> (Opened, Vec<u8>) {
    let mut out = vec![FILL; MAX_CHUNK];
    let mut pool = Pool::new(method);
    let opened = open_request(&key(method), CLOCK, bytes, &mut pool, &mut out).unwrap();
    (opened, out)
}

fn seal_response(method: Method, text: &[u8]) -> (ResponseStream<Sealing>, Vec<u8>) {
    let length = ResponseStream::<Sealing>::sealed_len(method, text.len()).unwrap();
    let mut out = vec![FILL; length];
    let own_salt = &OTHER_SALT[..method.salt_len()];
    let (stream, sealed) =
        ResponseStream::seal(&key(method), own_salt, salt(method), CLOCK, text, &mut out).unwrap();
    assert_eq!(sealed, length);
    (stream, out)
}

/// Seals every chunk behind what is sealed already.
fn seal_chunks<D>(stream: &mut Stream<D, Sealing>, wire: &mut Vec<u8>) {
    for length in CHUNKS {
        let text = payload(length);
        let due = Stream::<D, Sealing>::sealed_chunk_len(length).unwrap();
        let mut out = vec![FILL; due];
        assert_eq!(stream.seal_chunk(&text, &mut out), Ok(due));
        wire.extend(out);
    }
}

/// Opens every payload that the bytes hold.
fn open_chunks<D>(stream: &mut Stream<D, Opening>, mut bytes: &[u8]) -> Vec<Vec<u8>> {
    let mut payloads = Vec::new();
    let mut out = vec![FILL; MAX_CHUNK];
    while !bytes.is_empty() {
        let step = stream.open_chunk(bytes, &mut out).unwrap();
        bytes = &bytes[step.used()..];
        if let Step::Payload { length, .. } = step {
            payloads.push(out[..length].to_vec());
        }
    }
    payloads
}

#[test]
fn a_request_opens_at_the_server() {
    for method in Method::ALL {
        for address in addresses() {
            for (padding, length) in [(1, 0), (900, 0), (0, 1), (17, 1_400)] {
                let text = payload(length);
                let (_, wire) = seal_request(method, &address, padding, &text);
                let (request, out) = opened(method, &wire);
                assert_eq!(request.front.timestamp, CLOCK);
                assert_eq!(request.front.length, request.header.payload.end);
                assert_eq!(request.header.address(&out), address);
                assert_eq!(request.header.port, address.port());
                assert_eq!(usize::from(request.header.padding), padding);
                assert_eq!(request.header.payload(&out), text);
                assert_eq!(request.used(), wire.len());
                assert!(!request.stream.is_ended());
                assert_eq!(request.stream.method(), Some(method));
            }
        }
    }
}

#[test]
fn chunks_of_a_request_open_in_order() {
    for method in Method::ALL {
        let (mut sender, mut wire) = seal_request(method, &short_address(), 0, b"first");
        seal_chunks(&mut sender, &mut wire);
        let (mut request, _) = opened(method, &wire);
        let used = request.used();
        let payloads = open_chunks(&mut request.stream, &wire[used..]);
        assert!(payloads.into_iter().eq(CHUNKS.map(payload)));
    }
}

#[test]
fn a_response_and_its_chunks_open_at_the_client() {
    for method in Method::ALL {
        for length in CHUNKS {
            let (mut sender, mut wire) = seal_response(method, &payload(length));
            seal_chunks(&mut sender, &mut wire);
            let (mut receiver, header) =
                ResponseStream::open(&key(method), CLOCK, salt(method), &wire).unwrap();
            assert_eq!(header.length, length);
            assert_eq!(header.used, 2 * method.salt_len() + 27);
            let payloads = open_chunks(&mut receiver, &wire[header.used..]);
            let expected = [length].into_iter().chain(CHUNKS).map(payload);
            assert!(payloads.into_iter().eq(expected));
        }
    }
}

#[test]
fn sealed_streams_are_sip022s_byte_for_byte() {
    for method in Method::ALL {
        let (key, salt) = (key_bytes(method), salt(method));
        let piece = |counter, text: &[u8]| plain::piece(method, key, salt, counter, text);
        let address = Address::name(b"example.com", 443).unwrap();
        let (mut stream, mut wire) = seal_request(method, &address, 3, b"first");
        let mut out = [0; 64];
        for text in [&b"\0"[..], b"second"] {
            let length = stream.seal_chunk(text, &mut out).unwrap();
            wire.extend(&out[..length]);
        }
        let variable = [address.as_bytes(), &[0, 3, 0, 0, 0], b"first"].concat();
        let fixed = plain::fixed_header(0, CLOCK, variable.len());
        let mut expected = head_of(method, &fixed, &variable);
        expected.extend([piece(2, &[0, 1]), piece(3, b"\0")].concat());
        expected.extend([piece(4, &[0, 6]), piece(5, b"second")].concat());
        assert_eq!(wire, expected);

        let own_salt = &OTHER_SALT[..method.salt_len()];
        let piece = |counter, text: &[u8]| plain::piece(method, key, own_salt, counter, text);
        let (_, wire) = seal_response(method, b"answer");
        let fixed = [&[1][..], &CLOCK.to_be_bytes(), salt, &[0, 6]].concat();
        let expected = [own_salt.to_vec(), piece(0, &fixed), piece(1, b"answer")].concat();
        assert_eq!(wire, expected);
    }
}

/// One byte more at each call; nothing is used or lost before a piece is whole.
#[test]
fn a_stream_may_arrive_byte_by_byte() {
    Method::ALL.into_iter().for_each(arrive_byte_by_byte);
}

fn arrive_byte_by_byte(method: Method) {
    let (mut sender, mut wire) = seal_response(method, b"first");
    let mut out = [0; 64];
    let length = sender.seal_chunk(b"second", &mut out).unwrap();
    wire.extend(&out[..length]);

    let open = |bytes| ResponseStream::open(&key(method), CLOCK, salt(method), bytes);
    let head = 2 * method.salt_len() + 27;
    for length in 0..head {
        let refusal = open(&wire[..length]).unwrap_err();
        assert_eq!(refusal, Refusal::More { wanted: head });
    }
    let (mut stream, header) = open(&wire[..head]).unwrap();
    let mut place = header.used;
    for (wanted, expected) in [(21, Some("first")), (18, None), (22, Some("second"))] {
        let words = *stream.words();
        for length in 0..wanted {
            let refused = stream.open_chunk(&wire[place..place + length], &mut out);
            assert_eq!(refused, Err(Refusal::More { wanted }));
            assert_eq!(stream.words(), &words);
        }
        let step = stream.open_chunk(&wire[place..place + wanted], &mut out);
        match step.unwrap() {
            Step::Length { used, length } => assert_eq!((used, length), (18, 6)),
            Step::Payload { used, length } => {
                assert_eq!(used, wanted);
                assert_eq!(&out[..length], expected.unwrap().as_bytes());
            }
        }
        place += wanted;
    }
    assert_eq!(place, wire.len());
}

#[test]
fn a_wrong_tag_ends_a_stream() {
    Method::ALL.into_iter().for_each(end_with_a_wrong_tag);
}

fn end_with_a_wrong_tag(method: Method) {
    let (mut sender, _) = seal_request(method, &short_address(), 1, b"");
    let mut good = vec![0; 64];
    let length = sender.seal_chunk(b"payload", &mut good).unwrap();
    good.truncate(length);
    for place in 0..good.len() {
        let (_, head) = seal_request(method, &short_address(), 1, b"");
        let mut stream = opened(method, &head).0.stream;
        let mut forged = good.clone();
        forged[place] ^= 1;
        let mut out = [FILL; 64];
        if place >= 18 {
            stream.open_chunk(&forged, &mut out).unwrap();
            forged.drain(..18);
        }
        assert!(!stream.is_ended());
        let refused = stream.open_chunk(&forged, &mut out);
        assert_eq!(refused, Err(Refusal::NotAuthentic));
        assert!(stream.is_ended());
        // Nothing is opened any more, be it good or missing.
        for bytes in [&good[..], &[]] {
            let refused = stream.open_chunk(bytes, &mut out);
            assert_eq!(refused, Err(Refusal::NotAuthentic));
        }
        assert_eq!(out, [FILL; 64]);
    }
}

#[test]
fn too_little_room_leaves_a_stream_as_it_was() {
    Method::ALL
        .into_iter()
        .for_each(leave_a_stream_without_room);
}

fn leave_a_stream_without_room(method: Method) {
    let (_, wire) = seal_response(method, b"first");
    let (mut stream, header) =
        ResponseStream::open(&key(method), CLOCK, salt(method), &wire).unwrap();
    let words = *stream.words();
    for room in 0..5 {
        let mut out = vec![FILL; room];
        let refused = stream.open_chunk(&wire[header.used..], &mut out);
        assert_eq!(refused, Err(Refusal::Room));
        assert_eq!(out, vec![FILL; room]);
        assert_eq!(stream.words(), &words);
    }
    let mut out = [FILL; 6];
    assert!(stream.open_chunk(&wire[header.used..], &mut out).is_ok());
    assert_eq!(&out, b"first\xa5");
}

/// Each chunk has a nonce of its own: none opens in another's place.
#[test]
fn chunks_do_not_change_places() {
    for method in Method::ALL {
        let (mut sender, head) = seal_request(method, &short_address(), 1, b"");
        let mut out = [0; 64];
        sender.seal_chunk(b"one", &mut out).unwrap();
        let length = sender.seal_chunk(b"two", &mut out).unwrap();
        let mut stream = opened(method, &head).0.stream;
        let refused = stream.open_chunk(&out[..length], &mut [0; 64]);
        assert_eq!(refused, Err(Refusal::NotAuthentic));
    }
}

/// A stream is its method's, though the words and so the subkey are the same.
#[test]
fn a_stream_of_another_method_opens_nothing() {
    let others = Method::ALL
        .into_iter()
        .filter(|method| method.key_len() == 32);
    let others: Vec<Method> = others.collect();
    for &method in &others {
        let (mut sender, head) = seal_request(method, &short_address(), 1, b"");
        let mut out = [0; 64];
        let length = sender.seal_chunk(b"one", &mut out).unwrap();
        for other in &others {
            let mut words = *opened(method, &head).0.stream.words();
            words[1] = other.number();
            let mut stream = RequestStream::<Opening>::from_words(&words);
            let step = stream.open_chunk(&out[..length], &mut [0; 64]);
            assert_eq!(step.is_ok(), *other == method, "{method} opened as {other}");
        }
    }
}

#[test]
fn a_stream_goes_on_after_it_was_stored() {
    for method in Method::ALL {
        let (sender, mut wire) = seal_request(method, &short_address(), 1, b"");
        let mut sender = RequestStream::<Sealing>::from_words(sender.words());
        seal_chunks(&mut sender, &mut wire);
        let (request, _) = opened(method, &wire);
        let mut receiver = RequestStream::<Opening>::from_words(request.stream.words());
        let payloads = open_chunks(&mut receiver, &wire[request.used()..]);
        assert!(payloads.into_iter().eq(CHUNKS.map(payload)));
    }
}

#[test]
fn no_key_material_is_shown() {
    let (stream, _) = seal_request(Method::Aes256Gcm, &short_address(), 1, b"");
    let shown = format!("{stream:?}");
    assert_eq!(
        shown,
        "Stream { turn: 3, method: Some(Aes256Gcm), counter: 2, .. }"
    );
    let shown = format!("{:?}", key(Method::Aes256Gcm));
    assert_eq!(shown, "Key { method: Aes256Gcm, .. }");
}

/// A chunk is 65,535 bytes at most, and so is a variable header.
#[test]
fn the_longest_request_is_sealed_and_opened() {
    Method::ALL.into_iter().for_each(seal_and_open_the_longest);
}

fn seal_and_open_the_longest(method: Method) {
    let text = payload(MAX_CHUNK - 5 - 2);
    let (_, wire) = seal_request(method, &short_address(), 0, &text);
    let (request, out) = opened(method, &wire);
    assert_eq!(request.header.payload(&out), text);

    let longer = payload(text.len() + 1);
    let mut out = vec![0; 70_000];
    let sealed = RequestStream::seal(
        &key(method),
        salt(method),
        CLOCK,
        &short_address(),
        0,
        &longer,
        &mut out,
    );
    assert_eq!(sealed.unwrap_err(), Refusal::Length);
    let length =
        RequestStream::<Sealing>::sealed_len(method, &short_address(), usize::MAX, usize::MAX);
    assert_eq!(length, Err(Refusal::Length));
}

/// Whoever knows the key may send a length of 0: it ends the stream, and so does a response's.
#[test]
fn an_empty_chunk_ends_the_stream() {
    for method in Method::ALL {
        let (key_bytes, salt) = (key_bytes(method), salt(method));
        let (_, wire) = seal_request(method, &short_address(), 1, b"");
        let mut receiver = opened(method, &wire).0.stream;
        let empty = plain::piece(method, key_bytes, salt, 2, &[0, 0]);
        let mut forged = empty.clone();
        forged[17] ^= 1;
        let mut out = [FILL; 8];
        let mut other = RequestStream::from_words(receiver.words());
        assert_eq!(
            other.open_chunk(&forged, &mut out),
            Err(Refusal::NotAuthentic)
        );
        assert_eq!(
            receiver.open_chunk(&empty[..17], &mut out),
            Err(Refusal::More { wanted: 18 })
        );
        assert_eq!(receiver.open_chunk(&empty, &mut out), Err(Refusal::Empty));
        assert!(receiver.is_ended());
        assert_eq!(
            receiver.open_chunk(&empty, &mut out),
            Err(Refusal::NotAuthentic)
        );
        assert_eq!(out, [FILL; 8]);

        let own_salt = &OTHER_SALT[..method.salt_len()];
        let mut fixed = plain::fixed_header(1, CLOCK, 0);
        fixed.splice(9..9, salt.iter().copied());
        let fixed = plain::piece(method, key_bytes, own_salt, 0, &fixed);
        let head = [own_salt, &fixed].concat();
        let opened = ResponseStream::open(&key(method), CLOCK, salt, &head);
        assert_eq!(opened.unwrap_err(), Refusal::Empty);
        let opened = ResponseStream::open(&key(method), CLOCK, own_salt, &head);
        assert_eq!(opened.unwrap_err(), Refusal::Binding);
    }
}

/// The second call, at its own turn and at others.
#[test]
fn a_variable_header_has_a_turn_of_its_own() {
    for method in Method::ALL {
        let (_, wire) = seal_request(method, &short_address(), 1, b"");
        let (mut pool, mut out) = (Pool::new(method), vec![FILL; 64]);
        let (mut stream, front) =
            RequestStream::open(&key(method), CLOCK, &wire, &mut pool).unwrap();
        let (words, behind) = (*stream.words(), &wire[front.used..]);
        assert_eq!(words[..4], [4, method.number(), 1, 8]);
        let refused = stream.open_chunk(behind, &mut out);
        assert_eq!(refused, Err(Refusal::Settings));
        for length in 0..behind.len() {
            let refused = stream.open_variable(&behind[..length], &mut out);
            assert_eq!(refused, Err(Refusal::More { wanted: 24 }));
        }
        let refused = stream.open_variable(behind, &mut [0; 7]);
        assert_eq!(refused, Err(Refusal::Room));
        assert_eq!((stream.words(), &out), (&words, &vec![FILL; 64]));
        for (place, word) in [(0, 1), (0, 2), (0, 3), (1, 6), (2, 0), (2, 2), (3, 65_536)] {
            let mut words = words;
            words[place] = word;
            let mut odd = RequestStream::<Opening>::from_words(&words);
            let refused = odd.open_variable(behind, &mut out);
            assert_eq!(refused, Err(Refusal::Settings));
            assert_eq!(odd.words(), &words);
        }
        assert_eq!(stream.open_variable(behind, &mut out).unwrap().used, 24);
        assert_eq!(stream.words()[..4], [1, method.number(), 2, 0]);
        let refused = stream.open_variable(behind, &mut out);
        assert_eq!(refused, Err(Refusal::Settings));
    }
}
