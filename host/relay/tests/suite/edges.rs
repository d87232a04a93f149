//! Both sides of each edge that can be seen from outside.

use relay::{Method, Pool, Refusal, RequestStream, SealSession, Table};

use crate::common::*;
use crate::plain;

/// Where the method has no part in it.
const METHOD: Method = Method::Aes128Gcm;

fn new_table() -> Table {
    Table::new(60).unwrap()
}

#[test]
fn time_is_valid_up_to_30_seconds_away() {
    for method in Method::ALL {
        for (timestamp, valid) in [(970, true), (1_030, true), (969, false), (1_031, false)] {
            let datagram = sealed(method, CLIENT_ID, 0, timestamp);
            let opened = open(&mut new_table(), method, 1_000, &datagram);
            match opened {
                Ok(header) => assert!(valid && header.timestamp == timestamp),
                Err(refusal) => assert!(!valid && refusal == Refusal::Time),
            }
        }
    }
}

/// A difference is one of whole numbers, which does not wrap.
#[test]
fn time_does_not_wrap() {
    for method in Method::ALL {
        for clock in [0, 29] {
            let datagram = sealed(method, CLIENT_ID, 0, u64::MAX);
            let opened = open(&mut new_table(), method, clock, &datagram);
            assert_eq!(opened, Err(Refusal::Time));
        }
        let datagram = sealed(method, CLIENT_ID, 0, u64::MAX);
        assert!(open(&mut new_table(), method, u64::MAX - 30, &datagram).is_ok());
    }
}

#[test]
fn a_session_is_remembered_for_60_seconds() {
    for method in Method::ALL {
        remembered(method, new_table(), [(990, 1), (1_060, 1), (1_061, 0)]);
    }
}

#[test]
fn a_session_is_remembered_for_300_seconds_by_a_table_made_with_0() {
    let table = Table::new(0).unwrap();
    remembered(METHOD, table, [(990, 1), (1_300, 1), (1_301, 0)]);
}

/// How many sessions are alive at these clocks, one packet being accepted at 1,000.
fn remembered(method: Method, mut table: Table, clocks: [(u64, usize); 3]) {
    let datagram = sealed(method, CLIENT_ID, 7, 1_000);
    open(&mut table, method, 1_000, &datagram).unwrap();
    for (clock, alive) in clocks {
        assert_eq!(table.sessions(clock).count(), alive, "{clock}");
        let mut copy = Table::from_words(table.words());
        let same_packet = sealed(method, CLIENT_ID, 7, clock);
        let opened = open(&mut copy, method, clock, &same_packet);
        assert_eq!(opened.is_err(), alive == 1, "{clock}");
    }
}

/// Were the session forgotten at 60 seconds, this datagram would be taken again.
#[test]
fn a_datagram_from_30_seconds_ahead_is_never_taken_twice() {
    for method in Method::ALL {
        let mut table = new_table();
        let datagram = sealed(method, CLIENT_ID, 0, 1_030);
        open(&mut table, method, 1_000, &datagram).unwrap();
        for clock in 1_000..=1_060 {
            let opened = open(&mut table, method, clock, &datagram);
            assert_eq!(opened, Err(Refusal::Replay), "{clock}");
        }
        let opened = open(&mut table, method, 1_061, &datagram);
        assert_eq!(opened, Err(Refusal::Time));
    }
}

fn table_at_300() -> Table {
    let mut table = new_table();
    let datagram = sealed(METHOD, CLIENT_ID, 300, CLOCK);
    open(&mut table, METHOD, CLOCK, &datagram).unwrap();
    table
}

fn accepts(table: &mut Table, packet_id: u64) -> bool {
    let datagram = sealed(METHOD, CLIENT_ID, packet_id, CLOCK);
    match open(table, METHOD, CLOCK, &datagram) {
        Ok(_) => true,
        Err(refusal) => {
            assert_eq!(refusal, Refusal::Replay);
            false
        }
    }
}

#[test]
fn the_window_reaches_255_packets_back() {
    assert!(accepts(&mut table_at_300(), 45));
    assert!(!accepts(&mut table_at_300(), 44));
    assert!(!accepts(&mut table_at_300(), 300));
}

#[test]
fn the_window_moves_up_with_the_highest_packet() {
    let mut table = table_at_300();
    assert!(accepts(&mut table, 555));
    assert!(!accepts(&mut table, 300), "still marked");
    let mut table = table_at_300();
    assert!(accepts(&mut table, 556));
    assert!(!accepts(&mut table, 300), "too far back");
    assert!(accepts(&mut table, 301));
}

#[test]
fn a_refused_datagram_does_not_move_the_window() {
    for method in Method::ALL {
        let mut table = table_at_300();
        let words = *table.words();
        let late = sealed(method, CLIENT_ID, 9_000, CLOCK + 31);
        assert_eq!(open(&mut table, method, CLOCK, &late), Err(Refusal::Time));
        let mut forged = sealed(method, CLIENT_ID, 9_000, CLOCK);
        *forged.last_mut().unwrap() ^= 1;
        let opened = open(&mut table, method, CLOCK, &forged);
        assert_eq!(opened, Err(Refusal::NotAuthentic));
        assert_eq!(table.words(), &words);
    }
}

/// Plaintext 00, time 1,000, padding 00 00, 03 01 61 00 50; with ChaCha both IDs before it.
#[test]
fn the_shortest_datagram_has_48_or_72_bytes() {
    for (method, length) in Method::ALL.into_iter().zip([48, 48, 72, 72, 72]) {
        let mut body = plain::client_header(0, 1_000, 0);
        body.extend([3, 1, 0x61, 0, 0x50]);
        assert_eq!(body.len(), 16);
        let datagram = datagram_of(method, CLIENT_ID, 0, &body);
        assert_eq!(datagram.len(), length);
        let before = before_main_header(method);
        let mut out = vec![FILL; before + 16];
        let header = new_table()
            .open_server(&key(method), 1_000, peer(), &datagram, &mut out)
            .unwrap();
        assert_eq!(header.name(&out), Some(&b"a"[..]));
        assert_eq!(header.port, 80);
        assert_eq!(header.payload, before + 16..before + 16);
        assert_eq!(out[before..], body);

        let mut out = vec![FILL; length];
        let mut session = SealSession::client(CLIENT_ID);
        let (key, nonce) = (key(method), nonce(method));
        let sealed = session.seal(&key, nonce, 1_000, &short_address(), 0, b"", &mut out);
        assert_eq!(sealed, Ok(length));
        assert_eq!(out, datagram);
    }
}

#[test]
fn a_datagram_of_32_bytes_with_a_good_tag_is_malformed() {
    for method in [Method::Aes128Gcm, Method::Aes256Gcm] {
        let datagram = datagram_of(method, CLIENT_ID, 0, b"");
        assert_eq!(datagram.len(), 32);
        let opened = new_table().open_server(&key(method), CLOCK, peer(), &datagram, &mut []);
        assert_eq!(opened, Err(Refusal::Malformed));
        let opened = open(&mut new_table(), method, CLOCK, &datagram[..31]);
        assert_eq!(opened, Err(Refusal::Length));
    }
}

/// With ChaCha 39 bytes are none; a good tag around a plaintext of 0 to 26 bytes, or of 34
/// from a server, is malformed and zeroes what is due; 27 and an IPv4 address are enough.
#[test]
fn a_plaintext_too_short_is_malformed() {
    let methods = Method::ALL
        .into_iter()
        .filter(|method| method.takes_nonce());
    for method in methods {
        let key = key(method);
        let sealed =
            |text: &[u8]| plain::datagram_of_plaintext(method, key_bytes(method), &NONCE, text);
        let opened = open(&mut new_table(), method, CLOCK, &sealed(b"")[..39]);
        assert_eq!(opened, Err(Refusal::Length));
        for length in 0..=34 {
            let (datagram, mut out) = (sealed(&vec![0; length]), vec![FILL; length + 1]);
            assert_eq!(datagram.len(), 40 + length);
            let mut expected = vec![0; length];
            expected.push(FILL);
            if length < 27 {
                let opened = new_table().open_server(&key, 0, peer(), &datagram, &mut out);
                assert_eq!(opened, Err(Refusal::Malformed));
                assert_eq!(out, expected);
            }
            out.fill(FILL);
            let opened = new_table().open_client(&key, 0, 0, peer(), &datagram, &mut out);
            assert_eq!(opened, Err(Refusal::Malformed));
            assert_eq!(out, expected);
        }
        // Zeros of 27 bytes are type 0, time 0 and no padding, but no address.
        let whole = sealed(&[&[0; 27][..], &[1, 192, 0, 2, 1, 0, 80]].concat());
        assert_eq!(whole.len(), 74);
        assert!(open(&mut new_table(), method, 0, &whole).is_ok());
    }
}

#[test]
fn an_empty_name_is_malformed() {
    for method in Method::ALL {
        let mut body = plain::client_header(0, CLOCK, 0);
        body.extend([3, 0, 0, 0x50]);
        let datagram = datagram_of(method, CLIENT_ID, 0, &body);
        let opened = open(&mut new_table(), method, CLOCK, &datagram);
        assert_eq!(opened, Err(Refusal::Malformed));
    }
}

#[test]
fn packet_id_2_64_less_1_is_opened_but_never_sealed() {
    for method in Method::ALL {
        let last = u64::MAX;
        let mut session = SealSession::from_words(&[0, CLIENT_ID, 0, last - 1]);
        let address = short_address();
        let mut seal = |out: &mut [u8]| {
            let sealed = session.seal(&key(method), nonce(method), CLOCK, &address, 0, b"", out);
            assert_eq!(session.next_packet(), last);
            sealed
        };
        assert!(seal(&mut [FILL; 128]).is_ok());
        let mut out = [FILL; 128];
        for _ in 0..2 {
            assert_eq!(seal(&mut out), Err(Refusal::Counter));
            assert_eq!(out, [FILL; 128]);
        }

        let mut body = plain::client_header(0, CLOCK, 0);
        body.extend(address.as_bytes());
        let datagram = datagram_of(method, CLIENT_ID, last, &body);
        let mut table = new_table();
        let header = open(&mut table, method, CLOCK, &datagram).unwrap();
        assert_eq!(header.packet_id, last);
        let again = open(&mut table, method, CLOCK, &datagram);
        assert_eq!(again, Err(Refusal::Replay));
    }
}

#[test]
fn a_requests_padding_ends_at_900() {
    for method in Method::ALL {
        for (padding, lawful) in [(900_usize, true), (901, false)] {
            let mut variable = short_address().as_bytes().to_vec();
            variable.extend((padding as u16).to_be_bytes());
            variable.extend(vec![0; padding]);
            let fixed = plain::fixed_header(0, CLOCK, variable.len());
            let head = head_of(method, &fixed, &variable);
            let mut pool = Pool::new(method);
            let mut out = vec![FILL; 1_000];
            let opened = open_request(&key(method), CLOCK, &head, &mut pool, &mut out);
            match opened.map(|request| request.header) {
                Ok(header) => assert!(lawful && usize::from(header.padding) == padding),
                Err(refusal) => assert!(!lawful && refusal == Refusal::Malformed),
            }

            let sealed = RequestStream::seal(
                &key(method),
                salt(method),
                CLOCK,
                &short_address(),
                padding,
                b"",
                &mut out,
            );
            match sealed {
                Ok((_, length)) => assert!(lawful && out[..length] == head),
                Err(refusal) => assert!(!lawful && refusal == Refusal::Argument),
            }
        }
    }
}
