//! Whole datagrams of a client, sealed and opened for a server.

use std::cell::RefCell;
use std::hint::black_box;

use super::{forged, ours_and, text, Contestant, Row, KEY};
use crate::around::{Datagrams, Separate, FIXED_LENGTH, LONG_NONCE, SEPARATE_LENGTH};
use crate::ciphers::TAG_LENGTH;
use crate::kinds::{Call, Cipher, Kind, Method, AES_METHODS, CHACHA20, METHODS};
use crate::ours;
use crate::plain::{Peer, Refusal, Sessions};
use crate::suites::Suite;

/// Whole datagrams from a short one over those that fit an Ethernet and a jumbo
/// frame to the longest that UDP carries.
pub const SIZES: [usize; 5] = [64, 512, 1_400, 9_000, 65_507];

/// An IPv4 address and its port.
pub const ADDRESS: [u8; 7] = [1, 192, 0, 2, 1, 0, 80];

/// The first datagram of a client's session, which is what ours seals here.
const FIRST: Separate = Separate {
    session: 1,
    packet: 0,
};

pub const CLOCK: u64 = 1_000;

const RETENTION: u64 = 60;

pub fn rows() -> Vec<Row> {
    let mut rows = Vec::new();
    for method in METHODS {
        rows.extend(sizes(method).map(|size| seal(method, size)));
        rows.extend(sizes(method).map(|size| open(method, size)));
    }
    for method in AES_METHODS.into_iter().chain([CHACHA20]) {
        rows.extend(sizes(method).map(|size| refuse(method, size)));
    }
    rows
}

/// With ChaCha a datagram of 64 bytes has no room for a payload: the shortest is as much
/// longer as the nonce is.
fn sizes(method: Method) -> [usize; 5] {
    let mut sizes = SIZES;
    if method.cipher != Cipher::AesGcm {
        sizes[0] += LONG_NONCE.len();
    }
    sizes
}

/// The input is the payload.
fn seal(method: Method, size: usize) -> Row {
    let key = &KEY[..method.key_length];
    Row {
        kind: Kind::Datagram(method, Call::Seal),
        size,
        input: payload(method, size),
        buffer: size,
        special: None,
        contestants: contestants!(
            method.cipher,
            move |payload, out| {
                seal_by_ours(method, key, payload, out);
            },
            seal_with(key)
        ),
    }
}

/// Its length. The methods with AES do not look at the nonce.
fn seal_by_ours(method: Method, key: &[u8], payload: &[u8], out: &mut [u8]) -> usize {
    let (number, session) = (method.number, FIRST.session);
    ours::datagram_seal(
        number,
        key,
        &LONG_NONCE,
        session,
        CLOCK,
        &ADDRESS,
        payload,
        out,
    )
}

fn seal_with<S: Suite>(key: &'static [u8]) -> Contestant {
    let datagrams = Datagrams::<S::Body>::new(key.len());
    Contestant::new(S::LIBRARY, move |payload, out| {
        let length = datagrams.seal(key, FIRST, CLOCK, &ADDRESS, payload, out);
        assert_eq!(length, Ok(out.len()), "datagram not sealed");
    })
}

/// Opened as the first one of its session, which is forgotten before each call.
fn open(method: Method, size: usize) -> Row {
    let key = &KEY[..method.key_length];
    let table = RefCell::new(new_table());
    Row {
        kind: Kind::Datagram(method, Call::Open),
        size,
        input: sealed(method, size),
        buffer: size,
        special: None,
        contestants: contestants!(
            method.cipher,
            move |datagram, out| {
                let table = &mut table.borrow_mut();
                // The first record's word in use.
                table[1] = 0;
                let refused = ours::datagram_open(method.number, key, CLOCK, datagram, table, out);
                assert_eq!(refused, 0, "sealed datagram refused");
            },
            open_with(key)
        ),
    }
}

fn open_with<S: Suite>(key: &'static [u8]) -> Contestant {
    let datagrams = Datagrams::<S::Body>::new(key.len());
    let sessions = RefCell::new(new_sessions());
    Contestant::new(S::LIBRARY, move |datagram, out| {
        let sessions = &mut sessions.borrow_mut();
        sessions.forget_first();
        let peer = Peer::default();
        let header = datagrams.open(key, CLOCK, peer, datagram, sessions, out);
        // Its reader would use all of it.
        black_box(header.expect("a sealed datagram is opened"));
    })
}

/// The tag is wrong in its last bit: all refuse it, and the buffer stays as it was.
fn refuse(method: Method, size: usize) -> Row {
    let key = &KEY[..method.key_length];
    let table = RefCell::new(new_table());
    Row {
        kind: Kind::Datagram(method, Call::Refuse),
        size,
        input: forged(sealed(method, size)),
        buffer: size,
        special: None,
        contestants: contestants!(
            method.cipher,
            move |datagram, out| {
                let table = &mut table.borrow_mut();
                let refused = ours::datagram_open(method.number, key, CLOCK, datagram, table, out);
                let expected = Refusal::NotAuthentic as u64;
                assert_eq!(refused, expected, "forged datagram taken");
            },
            refuse_with(key, size)
        ),
    }
}

fn refuse_with<S: Suite>(key: &'static [u8], size: usize) -> Contestant {
    let datagrams = Datagrams::<S::Body>::new(key.len());
    let sessions = RefCell::new(new_sessions());
    // The libraries write the text before the tag is looked at.
    let scratch = RefCell::new(vec![0; size]);
    Contestant::new(S::LIBRARY, move |datagram, _| {
        let (sessions, out) = (&mut sessions.borrow_mut(), &mut scratch.borrow_mut());
        let peer = Peer::default();
        let header = datagrams.open(key, CLOCK, peer, datagram, sessions, out);
        let refusal = header.err();
        assert_eq!(
            refusal,
            Some(Refusal::NotAuthentic),
            "forged datagram taken"
        );
    })
}

/// What a datagram of a size has room for.
fn payload(method: Method, size: usize) -> Vec<u8> {
    let nonce = match method.cipher {
        Cipher::AesGcm => 0,
        Cipher::ChaCha { .. } => LONG_NONCE.len(),
    };
    text(size - nonce - SEPARATE_LENGTH - FIXED_LENGTH - ADDRESS.len() - TAG_LENGTH)
}

fn sealed(method: Method, size: usize) -> Vec<u8> {
    let key = &KEY[..method.key_length];
    let mut datagram = vec![0; size];
    let length = seal_by_ours(method, key, &payload(method, size), &mut datagram);
    assert_eq!(length, size, "another length than was asked for");
    datagram
}

/// The words of a record of ours; the last two count what it accepted and its repeats.
pub const RECORD: usize = 13;

/// A table of ours that was just made.
pub fn new_table() -> Vec<u64> {
    let mut table = vec![0; 1 + 64 * RECORD];
    table[0] = RETENTION;
    table
}

pub fn new_sessions() -> Sessions {
    Sessions::new(RETENTION)
}
