//! Chunks of a stream.

use super::{ours_and, text, Contestant, Row, KEY};
use crate::ciphers::{Aead, TAG_LENGTH};
use crate::kinds::{Call, Kind, Method, METHODS};
use crate::ours;
use crate::suites::Suite;

/// The payloads: one that fits an Ethernet frame, and the longest.
const LENGTHS: [u16; 2] = [1_400, 65_535];

/// A chunk's length, sealed.
const SEALED_LENGTH: usize = 2 + TAG_LENGTH;

pub fn rows() -> Vec<Row> {
    let mut rows = Vec::new();
    for method in METHODS {
        rows.extend(LENGTHS.map(|length| seal(method, length)));
        rows.extend(LENGTHS.map(|length| open(method, length)));
    }
    rows
}

/// A stream's first chunk is sealed: its length and its payload, with nonces that
/// count from 0.
fn seal(method: Method, length: u16) -> Row {
    let key = &KEY[..method.key_length];
    let size = usize::from(length);
    Row {
        kind: Kind::Chunk(method, Call::Seal),
        size,
        input: text(size),
        buffer: SEALED_LENGTH + size + TAG_LENGTH,
        special: None,
        contestants: contestants!(
            method.cipher,
            move |payload, out| {
                ours::chunk_seal(method.number, key, payload, out);
            },
            seal_with(key, length)
        ),
    }
}

fn seal_with<S: Suite>(key: &'static [u8], length: u16) -> Contestant {
    let context = S::Aead::new(key.len());
    Contestant::new(S::LIBRARY, move |payload, out| {
        let (front, rest) = out.split_at_mut(SEALED_LENGTH);
        context.seal(key, &nonce(0), &length.to_be_bytes(), front);
        context.seal(key, &nonce(1), payload, rest);
    })
}

/// The payload of a stream's first chunk is opened.
fn open(method: Method, length: u16) -> Row {
    let key = &KEY[..method.key_length];
    let size = usize::from(length);
    let mut chunk = vec![0; SEALED_LENGTH + size + TAG_LENGTH];
    ours::chunk_seal(method.number, key, &text(size), &mut chunk);
    Row {
        kind: Kind::Chunk(method, Call::Open),
        size,
        input: chunk.split_off(SEALED_LENGTH),
        buffer: size,
        special: None,
        contestants: contestants!(
            method.cipher,
            move |sealed, out| {
                let refused = ours::chunk_open(method.number, key, length, sealed, out);
                assert_eq!(refused, 0, "sealed chunk refused");
            },
            open_with(key)
        ),
    }
}

fn open_with<S: Suite>(key: &'static [u8]) -> Contestant {
    let context = S::Aead::new(key.len());
    Contestant::new(S::LIBRARY, move |sealed, out| {
        let opened = context.open(key, &nonce(1), sealed, out);
        assert!(opened, "sealed chunk refused");
    })
}

/// The counter in 12 bytes, little-endian.
fn nonce(counter: u64) -> [u8; 12] {
    let mut nonce = [0; 12];
    nonce[..8].copy_from_slice(&counter.to_le_bytes());
    nonce
}
