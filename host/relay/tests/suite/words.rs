//! Words that the host wrote: any of them lead to an answer or a refusal.

use relay::stream::{Opening, Sealing};
use relay::{Method, Pool, Refusal, RequestStream, ResponseStream, SealSession, Session, Table};

use crate::common::*;

/// Words in which odd values are as likely as any others.
fn word(random: &mut Random) -> u64 {
    match random.below(8) {
        0 => 0,
        1 => 1,
        2 => 2 + random.below(4),
        3 => u64::MAX - random.below(4),
        4 => CLOCK - random.below(100),
        5 => 60 + random.below(3_541),
        6 => 65_534 + random.below(3),
        _ => random.next(),
    }
}

fn words<const N: usize>(random: &mut Random) -> [u64; N] {
    std::array::from_fn(|_| word(random))
}

/// What a table shows of its sessions but for their counts of repeats.
fn shown(table: &Table, clock: u64) -> impl Iterator<Item = Session> + '_ {
    table.sessions(clock).map(|mut session| {
        session.repeats = 0;
        session
    })
}

/// Counts a repeat in the lowest record that is alive with an ID, and nowhere else.
fn count_repeat(words: &mut [u64; Table::WORDS], id: u64, clock: u64) {
    let retention = words[0];
    let mut records = words[1..].chunks_mut(13);
    let own = records.find(|record| {
        record[0] != 0 && record[1] == id && clock.saturating_sub(record[3]) <= retention
    });
    let repeats = &mut own.unwrap()[12];
    *repeats = repeats.saturating_add(1);
}

#[test]
fn tables() {
    let mut random = Random(1);
    for round in 0..2_000 {
        let mut words: [u64; Table::WORDS] = words(&mut random);
        if round % 4 != 0 {
            words[0] = 60;
        }
        let mut table = Table::from_words(&words);
        let (id, packet_id) = (word(&mut random), word(&mut random));
        let clock = word(&mut random).min(u64::MAX - 30);
        let method = Method::ALL[round % Method::ALL.len()];
        let datagram = sealed(method, id, packet_id.min(u64::MAX - 1), clock);
        let before: Vec<_> = shown(&table, clock).collect();
        let peer_before = table.peer_of(id, clock);
        match open(&mut table, method, clock, &datagram) {
            Ok(header) => {
                assert_eq!(header.session_id, id);
                assert_eq!(table.peer_of(id, clock), Some(peer()));
            }
            Err(refusal) => {
                let numbers = if words[0] == 60 { 8..=9 } else { 1..=9 };
                assert!(numbers.contains(&refusal.number()), "{refusal}");
                if refusal == Refusal::Replay {
                    count_repeat(&mut words, id, clock);
                }
                assert_eq!(table.words(), &words);
                assert_eq!(table.peer_of(id, clock), peer_before);
                assert!(shown(&table, clock).eq(before));
            }
        }
        assert!(table
            .sessions(clock)
            .all(|session| session.marked_in_window() <= 256));
        assert!(!format!("{table:?} {}", table.display(clock)).is_empty());
    }
}

#[test]
fn pools() {
    let mut random = Random(2);
    for round in 0..500 {
        let method = Method::ALL[round % Method::ALL.len()];
        let mut words: [u64; Pool::WORDS] = words(&mut random);
        if round % 4 != 0 {
            words[0] = method.number();
        }
        let clock = word(&mut random);
        let mut head = vec![0; 256];
        let salt = random.bytes(method.salt_len());
        let address = short_address();
        RequestStream::seal(&key(method), &salt, clock, &address, 1, b"", &mut head).unwrap();
        let mut pool = Pool::from_words(&words);
        let kept = pool.kept(clock);
        match RequestStream::open(&key(method), clock, &head, &mut pool) {
            Ok(_) => assert_eq!(pool.kept(clock), kept + 1),
            Err(refusal) => {
                assert!([1, 9].contains(&refusal.number()), "{refusal}");
                assert_eq!(pool.words(), &words);
            }
        }
        assert!(!format!("{pool:?}").is_empty());
    }
}

#[test]
fn sending_sessions() {
    let mut random = Random(3);
    for round in 0..5_000 {
        let method = Method::ALL[round % Method::ALL.len()];
        let words: [u64; SealSession::WORDS] = words(&mut random);
        let mut session = SealSession::from_words(&words);
        let address = short_address();
        let length = session.sealed_len(method, &address, 0, 4);
        let mut out = [FILL; 128];
        let clock = word(&mut random);
        match session.seal(
            &key(method),
            nonce(method),
            clock,
            &address,
            0,
            b"text",
            &mut out,
        ) {
            Ok(sealed) => {
                assert_eq!(Ok(sealed), length);
                assert_eq!(session.next_packet(), words[3] + 1);
            }
            Err(refusal) => {
                let expected = match words {
                    [side, ..] if side > 1 => Refusal::Settings,
                    [1, id, client, _] if id == client => Refusal::Argument,
                    _ => Refusal::Counter,
                };
                assert_eq!(refusal, expected);
                assert_eq!(session.words(), &words);
                assert_eq!(out, [FILL; 128]);
            }
        }
    }
}

#[test]
fn streams_that_seal() {
    let mut random = Random(4);
    for _ in 0..5_000 {
        let words: [u64; 8] = words(&mut random);
        let mut stream = RequestStream::<Sealing>::from_words(&words);
        assert_eq!(stream.is_ended(), words[0] == 0);
        let mut out = [FILL; 64];
        match stream.seal_chunk(b"text", &mut out) {
            Ok(sealed) => {
                assert_eq!(sealed, 38);
                assert_eq!(stream.words()[2], words[2] + 2);
            }
            Err(refusal) => {
                assert!([1, 4, 11].contains(&refusal.number()), "{refusal}");
                assert_eq!(stream.words(), &words);
                assert_eq!(out, [FILL; 64]);
            }
        }
        assert!(!format!("{stream:?}").is_empty());
    }
}

#[test]
fn streams_that_open() {
    let mut random = Random(5);
    for _ in 0..5_000 {
        let words: [u64; 8] = words(&mut random);
        let mut stream = ResponseStream::<Opening>::from_words(&words);
        let length = random.below(100) as usize;
        let bytes = random.bytes(length);
        let mut out = [FILL; 64];
        // No tag of random bytes is good.
        let refusal = stream.open_chunk(&bytes, &mut out).unwrap_err();
        assert!([1, 3, 4, 10, 11].contains(&refusal.number()), "{refusal}");
        assert_eq!(out, [FILL; 64]);
        if refusal == Refusal::NotAuthentic {
            assert!(stream.is_ended());
            assert_eq!(stream.words()[1..], words[1..]);
        } else {
            assert_eq!(stream.words(), &words);
        }
    }
}

/// The same of the call for a variable header: 4 ends the stream, and nothing else
/// that is refused here moves it.
#[test]
fn streams_at_a_variable_header() {
    let mut random = Random(6);
    for round in 0..5_000 {
        let mut words: [u64; 8] = words(&mut random);
        if round % 2 == 0 {
            words[..3].copy_from_slice(&[4, 1 + random.below(5), 1]);
            words[3] = random.below(80);
        }
        let mut stream = RequestStream::<Opening>::from_words(&words);
        let length = random.below(100) as usize;
        let bytes = random.bytes(length);
        let mut out = [FILL; 64];
        let refusal = stream.open_variable(&bytes, &mut out).unwrap_err();
        assert!([1, 3, 4, 10].contains(&refusal.number()), "{refusal}");
        assert_eq!(out, [FILL; 64]);
        if refusal == Refusal::NotAuthentic {
            assert!(stream.is_ended());
            assert_eq!(stream.words()[1..], words[1..]);
        } else {
            assert_eq!(stream.words(), &words);
        }
    }
}

/// Each half refuses the other's words, and leaves them.
#[test]
fn a_stream_at_another_turn() {
    for turn in [1, 2, 4, u64::MAX] {
        let words = [turn, 1, 0, 0, 1, 2, 0, 0];
        let mut stream = RequestStream::<Sealing>::from_words(&words);
        let refused = stream.seal_chunk(b"text", &mut [0; 64]);
        assert_eq!(refused, Err(Refusal::Settings));
        assert_eq!(stream.words(), &words);
    }
    for (turn, length) in [
        (2, 65_536),
        (3, 0),
        (4, 0),
        (4, 65_536),
        (5, 0),
        (u64::MAX, 0),
    ] {
        let words = [turn, 1, 0, length, 1, 2, 0, 0];
        let mut stream = RequestStream::<Opening>::from_words(&words);
        let refused = stream.open_chunk(&[0; 64], &mut [0; 64]);
        assert_eq!(refused, Err(Refusal::Settings));
        assert_eq!(stream.words(), &words);
    }
}

/// As the documentation says: nothing is shared behind the types.
#[test]
fn states_may_go_to_other_threads() {
    fn check<T: Send + Sync>() {}
    check::<Table>();
    check::<Pool>();
    check::<SealSession>();
    check::<RequestStream<Sealing>>();
    check::<ResponseStream<Opening>>();
}
