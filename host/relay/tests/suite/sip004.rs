//! Datagrams and streams of the 2017 edition.

use relay::sip004::{self, Key, Method, Receiver, Sender, MAX_CHUNK};
use relay::stream::Opening;
use relay::{Refusal, RequestStream, Step, MAX_DATAGRAM};

use crate::common::{payload, Random, FILL, KEY, OTHER_SALT, SALT};
use crate::plain;

/// Payloads of chunks.
const CHUNKS: [usize; 8] = [0, 1, 2, 15, 16, 1_400, MAX_CHUNK - 1, MAX_CHUNK];

/// Of salts: a method has one of these, if any.
const LENGTHS: [usize; 10] = [0, 1, 15, 16, 17, 23, 24, 25, 31, 32];

const TAG: usize = 16;

fn key_bytes(method: Method) -> &'static [u8] {
    &KEY[..method.key_len()]
}

fn key(method: Method) -> Key {
    Key::new(method, key_bytes(method)).unwrap()
}

fn salt(method: Method) -> &'static [u8] {
    &SALT[..method.salt_len()]
}

fn sealed(method: Method, text: &[u8]) -> Vec<u8> {
    let length = sip004::sealed_datagram_len(method, text.len()).unwrap();
    let mut out = vec![FILL; length];
    let sealed = sip004::seal_datagram(&key(method), salt(method), text, &mut out);
    assert_eq!(sealed, Ok(length));
    out
}

fn sender(method: Method) -> Sender {
    Sender::begin(&key(method), salt(method)).unwrap()
}

fn receiver(method: Method) -> Receiver {
    Receiver::begin(&key(method), salt(method)).unwrap()
}

/// A piece that the library did not seal, under the common key and salt.
fn piece(method: Method, counter: u64, text: &[u8]) -> Vec<u8> {
    plain::sip004_piece(key_bytes(method), salt(method), counter, text)
}

/// Every payload that the bytes hold.
fn open_chunks(stream: &mut Receiver, mut bytes: &[u8]) -> Vec<Vec<u8>> {
    let mut payloads = Vec::new();
    let mut out = vec![FILL; MAX_CHUNK];
    while !bytes.is_empty() {
        let step = stream.open_chunk(bytes, &mut out).unwrap();
        bytes = &bytes[step.used()..];
        if let Step::Payload { length, .. } = step {
            payloads.push(out[..length].to_vec());
        }
    }
    payloads
}

/// One chunk of each length.
fn seal_chunks(stream: &mut Sender) -> Vec<u8> {
    let mut wire = Vec::new();
    for length in CHUNKS {
        let due = Sender::sealed_chunk_len(length).unwrap();
        let mut out = vec![FILL; due];
        assert_eq!(stream.seal_chunk(&payload(length), &mut out), Ok(due));
        wire.extend(out);
    }
    wire
}

#[test]
fn datagrams_open_to_what_was_sealed() {
    for method in Method::ALL {
        let longest = MAX_DATAGRAM - method.salt_len() - TAG;
        for length in [0, 1, 15, 16, 17, 1_400, longest] {
            let (text, mut out) = (payload(length), vec![FILL; length + 3]);
            let datagram = sealed(method, &text);
            let opened = sip004::open_datagram(&key(method), &datagram, &mut out);
            assert_eq!(opened, Ok(length));
            assert_eq!(out[..length], text);
            assert_eq!(out[length..], [FILL; 3]);
        }
    }
}

#[test]
fn sealed_datagrams_are_sip004s_byte_for_byte() {
    for method in Method::ALL {
        for length in [0, 1, 16, 100] {
            let text = payload(length);
            let expected = plain::sip004_datagram(key_bytes(method), salt(method), &text);
            assert_eq!(sealed(method, &text), expected);
        }
    }
}

#[test]
fn sealed_chunks_are_sip004s_byte_for_byte() {
    for method in Method::ALL {
        let (mut stream, mut wire) = (sender(method), Vec::<u8>::new());
        for text in [&b"first"[..], b"", b"third"] {
            let mut out = [0; 64];
            let length = stream.seal_chunk(text, &mut out).unwrap();
            wire.extend(&out[..length]);
        }
        let pieces: [&[u8]; 6] = [&[0, 5], b"first", &[0, 0], b"", &[0, 5], b"third"];
        let counted = (0..).zip(pieces);
        let expected = counted.flat_map(|(counter, text)| piece(method, counter, text));
        assert!(wire.into_iter().eq(expected));
    }
}

#[test]
fn chunks_open_in_order() {
    for method in Method::ALL {
        let (mut sender, mut receiver) = (sender(method), receiver(method));
        for _ in 0..2 {
            let wire = seal_chunks(&mut sender);
            let payloads = open_chunks(&mut receiver, &wire);
            assert!(payloads.into_iter().eq(CHUNKS.map(payload)));
        }
        assert_eq!((sender.words()[2], receiver.words()[2]), (32, 32));
        assert!(!receiver.is_ended());
    }
}

/// As the header of the library tells them: turn, method, counter, length, subkey.
#[test]
fn a_stream_begins_at_its_words() {
    for (method, zeros) in Method::ALL.into_iter().zip([2, 1, 0]) {
        let (sender, receiver) = (sender(method), receiver(method));
        assert_eq!(sender.words()[..4], [3, method.number(), 0, 0]);
        assert_eq!(receiver.words()[..4], [1, method.number(), 0, 0]);
        assert_eq!(sender.words()[4..], receiver.words()[4..]);
        let subkey = &sender.words()[4..];
        assert_eq!(subkey[4 - zeros..], [0, 0][..zeros]);
        assert!(subkey[..4 - zeros].iter().all(|&word| word != 0));
        assert_eq!(receiver.method(), Some(method));
        let shown = format!("{receiver:?}");
        assert_eq!(
            shown,
            format!("Stream {{ turn: 1, method: Some({method:?}), counter: 0, .. }}")
        );
    }
}

#[test]
fn a_stream_goes_on_after_it_was_stored() {
    let method = Method::Aes192Gcm;
    let (mut sender, mut receiver) = (sender(method), receiver(method));
    for text in [&b"one"[..], b"two"] {
        let mut out = [0; 64];
        let length = sender.seal_chunk(text, &mut out).unwrap();
        sender = Sender::from_words(sender.words());
        receiver.open_chunk(&out[..18], &mut []).unwrap();
        receiver = Receiver::from_words(receiver.words());
        assert_eq!(open_chunks(&mut receiver, &out[18..length]), [text]);
    }
}

/// One byte more at each call; nothing is used or lost before a piece is whole.
#[test]
fn a_stream_may_arrive_byte_by_byte() {
    for method in Method::ALL {
        let (mut sender, mut receiver) = (sender(method), receiver(method));
        let (mut wire, mut out) = ([0; 64], [FILL; 64]);
        let sealed = sender.seal_chunk(b"text", &mut wire).unwrap();
        let mut place = 0;
        for wanted in [18, 20] {
            let words = *receiver.words();
            for length in 0..wanted {
                let refused = receiver.open_chunk(&wire[place..place + length], &mut out);
                assert_eq!(refused, Err(Refusal::More { wanted }));
                assert_eq!(receiver.words(), &words);
            }
            assert_eq!(out, [FILL; 64]);
            let step = receiver.open_chunk(&wire[place..], &mut out).unwrap();
            assert_eq!(step.used(), wanted);
            place += wanted;
        }
        assert_eq!(place, sealed);
        assert_eq!(&out[..5], b"text\xa5");
    }
}

#[test]
fn number_1_of_salts() {
    for method in Method::ALL {
        for length in LENGTHS {
            let salt = &SALT[..length];
            let refused = (length != method.salt_len()).then_some(Refusal::Settings);
            assert_eq!(Sender::begin(&key(method), salt).err(), refused);
            assert_eq!(Receiver::begin(&key(method), salt).err(), refused);
            // Before a length and a room that would be refused too.
            let sealed = sip004::seal_datagram(&key(method), salt, &[0; 70_000], &mut []);
            assert_eq!(sealed, Err(refused.unwrap_or(Refusal::Length)));
        }
    }
}

/// Words of Shadowsocks 2022 and numbers that only end like a method's are none here.
#[test]
fn number_1_of_methods() {
    for method in [0, 1, 2, 3, 10, 14, 256 + 11, (1 << 32) + 12, u64::MAX] {
        for turn in [0, 1, 2, 3] {
            let words = [turn, method, 0, 0, 1, 2, 3, 4];
            let mut stream = Receiver::from_words(&words);
            let refused = stream.open_chunk(&[0; 64], &mut [0; 64]);
            assert_eq!(refused, Err(Refusal::Settings));
            assert_eq!(stream.words(), &words);
            let mut stream = Sender::from_words(&words);
            let refused = stream.seal_chunk(b"text", &mut [0; 64]);
            assert_eq!(refused, Err(Refusal::Settings));
            assert_eq!(stream.words(), &words);
        }
    }
}

/// The words of these streams are none of Shadowsocks 2022, whatever their turn.
#[test]
fn number_1_in_the_calls_of_2022() {
    for method in Method::ALL {
        for turn in [0, 1, 2, 3, 4] {
            let words = [turn, method.number(), 1, 1, 1, 2, 3, 4];
            let mut stream = RequestStream::<Opening>::from_words(&words);
            assert_eq!(stream.method(), None);
            let refused = stream.open_chunk(&[0; 64], &mut [0; 64]);
            assert_eq!(refused, Err(Refusal::Settings));
            let refused = stream.open_variable(&[0; 64], &mut [0; 64]);
            assert_eq!(refused, Err(Refusal::Settings));
        }
    }
}

/// Each half refuses the other's words, and a payload longer than any.
#[test]
fn number_1_of_turns() {
    for method in Method::ALL.map(Method::number) {
        for turn in [1, 2, 4, u64::MAX] {
            let words = [turn, method, 0, 0, 1, 2, 3, 4];
            let refused = Sender::from_words(&words).seal_chunk(b"text", &mut [0; 64]);
            assert_eq!(refused, Err(Refusal::Settings));
        }
        let longer = MAX_CHUNK as u64 + 1;
        for (turn, length) in [(2, longer), (2, u64::MAX), (3, 0), (4, 0), (5, 0)] {
            // Before a counter that is used up.
            let words = [turn, method, u64::MAX, length, 1, 2, 3, 4];
            let mut stream = Receiver::from_words(&words);
            let refused = stream.open_chunk(&[0; 64], &mut [0; 64]);
            assert_eq!(refused, Err(Refusal::Settings));
            assert_eq!(stream.words(), &words);
        }
        for (length, wanted) in [(0, TAG), (longer - 1, MAX_CHUNK + TAG)] {
            let mut stream = Receiver::from_words(&[2, method, 0, length, 1, 2, 3, 4]);
            let refused = stream.open_chunk(&[], &mut []);
            assert_eq!(refused, Err(Refusal::More { wanted }));
        }
    }
}

#[test]
fn number_2_of_datagrams() {
    let mut out = vec![FILL; 70_000];
    for method in Method::ALL {
        let least = method.salt_len() + TAG;
        // Before a room that would be refused too.
        for length in [0, TAG, least - 1, MAX_DATAGRAM + 1, 70_000] {
            let opened = sip004::open_datagram(&key(method), &vec![0; length], &mut []);
            assert_eq!(opened, Err(Refusal::Length));
        }
        for length in [least, MAX_DATAGRAM] {
            let opened = sip004::open_datagram(&key(method), &vec![0; length], &mut out);
            assert_eq!(opened, Err(Refusal::NotAuthentic));
        }
        let longer = vec![0; MAX_DATAGRAM - least + 1];
        let sealed = sip004::seal_datagram(&key(method), salt(method), &longer, &mut out);
        assert_eq!(sealed, Err(Refusal::Length));
        for length in [longer.len(), usize::MAX] {
            let length = sip004::sealed_datagram_len(method, length);
            assert_eq!(length, Err(Refusal::Length));
        }
    }
    assert_eq!(out, vec![FILL; 70_000]);
}

#[test]
fn number_2_of_chunks() {
    for method in Method::ALL {
        let mut stream = sender(method);
        let words = *stream.words();
        for length in [MAX_CHUNK + 1, 65_536] {
            // Before a room that would be refused too.
            let refused = stream.seal_chunk(&vec![0; length], &mut []);
            assert_eq!(refused, Err(Refusal::Length));
            assert_eq!(Sender::sealed_chunk_len(length), Err(Refusal::Length));
        }
        assert_eq!(stream.words(), &words);
    }
}

#[test]
fn number_3_room() {
    for method in Method::ALL {
        let mut datagram = sealed(method, b"text");
        // Before a tag that would be refused too.
        *datagram.last_mut().unwrap() ^= 1;
        for room in 0..4 {
            let mut out = vec![FILL; room];
            let opened = sip004::open_datagram(&key(method), &datagram, &mut out);
            assert_eq!(opened, Err(Refusal::Room));
            assert_eq!(out, vec![FILL; room]);
        }
        let mut out = vec![FILL; datagram.len() - 1];
        let sealed = sip004::seal_datagram(&key(method), salt(method), b"text", &mut out);
        assert_eq!(sealed, Err(Refusal::Room));
        assert!(out.iter().all(|&byte| byte == FILL));

        let (mut sender, mut receiver, mut wire) = (sender(method), receiver(method), [FILL; 38]);
        let refused = sender.seal_chunk(b"text", &mut wire[..37]);
        assert_eq!(refused, Err(Refusal::Room));
        assert_eq!((wire, sender.words()[2]), ([FILL; 38], 0));
        sender.seal_chunk(b"text", &mut wire).unwrap();
        receiver.open_chunk(&wire, &mut []).unwrap();
        let words = *receiver.words();
        let mut out = [FILL; 3];
        let refused = receiver.open_chunk(&wire[18..], &mut out);
        assert_eq!(refused, Err(Refusal::Room));
        assert_eq!((out, receiver.words()), ([FILL; 3], &words));
        assert_eq!(open_chunks(&mut receiver, &wire[18..]), [b"text"]);
    }
}

/// Each byte counts: of the salt, of the text and of the tag.
#[test]
fn number_4_of_datagrams() {
    for method in Method::ALL {
        let datagram = sealed(method, b"text");
        for place in 0..datagram.len() {
            let (mut forged, mut out) = (datagram.clone(), [FILL; 8]);
            forged[place] ^= 0x80;
            let opened = sip004::open_datagram(&key(method), &forged, &mut out);
            assert_eq!(opened, Err(Refusal::NotAuthentic));
            assert_eq!(out, [FILL; 8]);
        }
        let other = Key::new(method, &OTHER_SALT[..method.key_len()]).unwrap();
        let opened = sip004::open_datagram(&other, &datagram, &mut [0; 8]);
        assert_eq!(opened, Err(Refusal::NotAuthentic));
    }
}

#[test]
fn number_4_ends_a_stream() {
    for method in Method::ALL {
        let mut good = [0; 38];
        sender(method).seal_chunk(b"text", &mut good).unwrap();
        for place in 0..good.len() {
            let (mut stream, mut forged, mut out) = (receiver(method), good, [FILL; 64]);
            forged[place] ^= 1;
            let mut bytes = &forged[..];
            if place >= 18 {
                stream.open_chunk(bytes, &mut out).unwrap();
                bytes = &bytes[18..];
            }
            let refused = stream.open_chunk(bytes, &mut out);
            assert_eq!(refused, Err(Refusal::NotAuthentic));
            assert!(stream.is_ended());
            // Nothing is opened any more, be it good or missing.
            for bytes in [&good[..], &[]] {
                let refused = stream.open_chunk(bytes, &mut []);
                assert_eq!(refused, Err(Refusal::NotAuthentic));
            }
            assert_eq!(out, [FILL; 64]);
        }
    }
}

/// Before a counter that is used up, a length and a room.
#[test]
fn number_4_of_a_stream_that_has_ended() {
    for method in Method::ALL.map(Method::number) {
        let words = [0, method, u64::MAX, 70_000, 1, 2, 3, 4];
        let mut stream = Sender::from_words(&words);
        let refused = stream.seal_chunk(&[0; 70_000], &mut []);
        assert_eq!(refused, Err(Refusal::NotAuthentic));
        let mut stream = Receiver::from_words(&words);
        let refused = stream.open_chunk(&[], &mut []);
        assert_eq!(refused, Err(Refusal::NotAuthentic));
        assert_eq!(stream.words(), &words);
    }
}

/// A length is looked at right behind its tag, and one above 16,383 ends the stream.
#[test]
fn number_5_ends_a_stream() {
    for method in Method::ALL {
        for length in [MAX_CHUNK as u16 + 1, 0x4001, 0x8000, 0xc005, u16::MAX] {
            let bytes = piece(method, 0, &length.to_be_bytes());
            let (mut stream, mut out) = (receiver(method), [FILL; 8]);
            let mut forged = bytes.clone();
            forged[17] ^= 1;
            let refused = receiver(method).open_chunk(&forged, &mut out);
            assert_eq!(refused, Err(Refusal::NotAuthentic));
            let refused = stream.open_chunk(&bytes[..17], &mut out);
            assert_eq!(refused, Err(Refusal::More { wanted: 18 }));
            let words = *stream.words();
            let refused = stream.open_chunk(&bytes, &mut out);
            assert_eq!(refused, Err(Refusal::Malformed));
            assert!(stream.is_ended());
            assert_eq!(stream.words()[1..], words[1..]);
            let refused = stream.open_chunk(&bytes, &mut out);
            assert_eq!(refused, Err(Refusal::NotAuthentic));
            assert_eq!(out, [FILL; 8]);
        }
        let bytes = piece(method, 0, &(MAX_CHUNK as u16).to_be_bytes());
        let step = receiver(method).open_chunk(&bytes, &mut []);
        let (used, length) = (18, MAX_CHUNK);
        assert_eq!(step, Ok(Step::Length { used, length }));
    }
}

#[test]
fn empty_chunks_are_lawful() {
    for method in Method::ALL {
        let mut wire = [FILL; 34];
        assert_eq!(sender(method).seal_chunk(b"", &mut wire), Ok(34));
        let mut stream = receiver(method);
        let step = stream.open_chunk(&wire, &mut []);
        let (used, length) = (18, 0);
        assert_eq!(step, Ok(Step::Length { used, length }));
        let refused = stream.open_chunk(&wire[18..33], &mut []);
        assert_eq!(refused, Err(Refusal::More { wanted: TAG }));
        let step = stream.open_chunk(&wire[18..], &mut []);
        let used = TAG;
        assert_eq!(step, Ok(Step::Payload { used, length }));
        assert_eq!(stream.words()[..3], [1, method.number(), 2]);
    }
}

#[test]
fn number_11_counter() {
    let last = u64::MAX;
    for method in Method::ALL.map(Method::number) {
        for (counter, refused) in [
            (last - 2, None),
            (last - 1, Some(Refusal::Counter)),
            (last, Some(Refusal::Counter)),
        ] {
            let mut stream = Sender::from_words(&[3, method, counter, 0, 1, 2, 3, 4]);
            assert_eq!(stream.seal_chunk(b"x", &mut [0; 35]).err(), refused);
        }
        // Before a length and a room.
        let mut stream = Sender::from_words(&[3, method, last, 0, 1, 2, 3, 4]);
        let refused = stream.seal_chunk(&[0; 70_000], &mut []);
        assert_eq!(refused, Err(Refusal::Counter));
        for turn in [1, 2] {
            let mut stream = Receiver::from_words(&[turn, method, last, 5, 1, 2, 3, 4]);
            assert_eq!(stream.open_chunk(&[], &mut []), Err(Refusal::Counter));
            let mut stream = Receiver::from_words(&[turn, method, last - 1, 5, 1, 2, 3, 4]);
            let refused = stream.open_chunk(&[], &mut []);
            assert!(matches!(refused, Err(Refusal::More { .. })));
        }
    }
}

/// Any words lead to an answer or a refusal of the call's list, and only 4 moves them
/// where no tag is good.
#[test]
fn words_that_the_host_wrote() {
    let mut random = Random(7);
    let odd = [0, 1, 2, 3, 11, 12, 13, 16_383, 16_384, u64::MAX];
    for round in 0..5_000 {
        let mut words: [u64; 8] =
            std::array::from_fn(|_| match random.below(odd.len() as u64 + 1) as usize {
                index if index < odd.len() => odd[index],
                _ => random.next(),
            });
        if round % 2 == 0 {
            words[1] = 11 + random.below(3);
        }
        let length = random.below(100) as usize;
        let (bytes, mut out) = (random.bytes(length), [FILL; 64]);
        let mut stream = Receiver::from_words(&words);
        let refusal = stream.open_chunk(&bytes, &mut out).unwrap_err();
        assert!([1, 3, 4, 10, 11].contains(&refusal.number()), "{refusal}");
        if refusal == Refusal::NotAuthentic {
            assert!(stream.is_ended());
            assert_eq!(stream.words()[1..], words[1..]);
        } else {
            assert_eq!(stream.words(), &words);
        }
        assert_eq!(out, [FILL; 64]);

        let mut stream = Sender::from_words(&words);
        match stream.seal_chunk(b"text", &mut out) {
            Ok(sealed) => assert_eq!((sealed, stream.words()[2]), (38, words[2] + 2)),
            Err(refusal) => {
                assert!([1, 4, 11].contains(&refusal.number()), "{refusal}");
                assert_eq!(stream.words(), &words);
                assert_eq!(out, [FILL; 64]);
            }
        }
    }
}

#[test]
fn streams_may_go_to_other_threads() {
    fn check<T: Send + Sync>() {}
    check::<Key>();
    check::<Sender>();
    check::<Receiver>();
}
