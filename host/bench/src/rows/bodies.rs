//! The ciphers of methods 1 to 3 alone, on bodies of the datagrams' lengths.

use std::cell::RefCell;

use super::{forged, ours_and, text, Contestant, Row, KEY, NONCE};
use crate::ciphers::{Aead, TAG_LENGTH};
use crate::kinds::{Call, Cipher, Kind, Method, AES_METHODS, CHACHA20};
use crate::openssl::{AesGcm, ChaChaPoly};
use crate::ours;
use crate::suites::Suite;

/// A short datagram's body, one that fits an Ethernet frame, one that fits a jumbo
/// frame, and the longest.
const SIZES: [usize; 4] = [64, 1_400, 9_000, 65_507];

const FORGED_SIZES: [usize; 2] = [64, 65_507];

pub fn rows() -> Vec<Row> {
    let mut rows = Vec::new();
    for method in AES_METHODS.into_iter().chain([CHACHA20]) {
        rows.extend(SIZES.map(|size| match method.cipher {
            Cipher::AesGcm => seal(method, size),
            Cipher::ChaCha { rounds } => seal_in_place(method, rounds, size),
        }));
        rows.extend(SIZES.map(|size| open(method, size)));
        rows.extend(FORGED_SIZES.map(|size| refuse(method, size)));
    }
    rows
}

fn seal(method: Method, size: usize) -> Row {
    let key = &KEY[..method.key_length];
    Row {
        kind: Kind::Body(method, Call::Seal),
        size,
        input: text(size),
        buffer: size + TAG_LENGTH,
        special: None,
        contestants: contestants!(
            method.cipher,
            move |text, out| {
                ours::gcm_seal(key, &NONCE, text, out);
            },
            seal_with(key)
        ),
    }
}

fn seal_with<S: Suite>(key: &'static [u8]) -> Contestant {
    let context = S::Aead::new(key.len());
    Contestant::new(S::LIBRARY, move |text, out| {
        context.seal(key, &NONCE, text, out);
    })
}

/// With ChaCha ours seals where the text stands, and so do the others.
fn seal_in_place(method: Method, rounds: usize, size: usize) -> Row {
    let key = &KEY[..method.key_length];
    Row {
        kind: Kind::Body(method, Call::Seal),
        size,
        input: Vec::new(),
        buffer: size + TAG_LENGTH,
        special: None,
        contestants: contestants!(
            method.cipher,
            move |_, body| {
                ours::chacha_poly_seal(rounds, key, &NONCE, body);
            },
            seal_in_place_with(key)
        ),
    }
}

fn seal_in_place_with<S: Suite>(key: &'static [u8]) -> Contestant {
    let context = S::Aead::new(key.len());
    Contestant::new(S::LIBRARY, move |_, body| {
        context.seal_in_place(key, &NONCE, body);
    })
}

/// Ours opens, by the method's cipher.
fn opened(method: Method, key: &[u8], sealed: &[u8], out: &mut [u8]) -> bool {
    match method.cipher {
        Cipher::AesGcm => ours::gcm_open(key, &NONCE, sealed, out),
        Cipher::ChaCha { rounds } => ours::chacha_poly_open(rounds, key, &NONCE, sealed, out),
    }
}

fn open(method: Method, size: usize) -> Row {
    let key = &KEY[..method.key_length];
    Row {
        kind: Kind::Body(method, Call::Open),
        size,
        input: sealed(method, size),
        buffer: size,
        special: None,
        contestants: contestants!(
            method.cipher,
            move |sealed, out| {
                assert!(opened(method, key, sealed, out), "sealed text refused");
            },
            open_with(key)
        ),
    }
}

fn open_with<S: Suite>(key: &'static [u8]) -> Contestant {
    let context = S::Aead::new(key.len());
    Contestant::new(S::LIBRARY, move |sealed, out| {
        let opened = context.open(key, &NONCE, sealed, out);
        assert!(opened, "sealed text refused");
    })
}

/// The tag is wrong in its last bit: all refuse it, and the buffer stays as it was.
fn refuse(method: Method, size: usize) -> Row {
    let key = &KEY[..method.key_length];
    Row {
        kind: Kind::Body(method, Call::Refuse),
        size,
        input: forged(sealed(method, size)),
        buffer: size,
        special: None,
        contestants: contestants!(
            method.cipher,
            move |forged, out| {
                assert!(!opened(method, key, forged, out), "forged text taken");
            },
            refuse_with(key, size)
        ),
    }
}

fn refuse_with<S: Suite>(key: &'static [u8], size: usize) -> Contestant {
    let context = S::Aead::new(key.len());
    // The libraries write the text before the tag is looked at.
    let scratch = RefCell::new(vec![0; size]);
    Contestant::new(S::LIBRARY, move |forged, _| {
        let out = &mut scratch.borrow_mut();
        let opened = context.open(key, &NONCE, forged, out);
        assert!(!opened, "forged text taken");
    })
}

fn sealed(method: Method, size: usize) -> Vec<u8> {
    let (key, text) = (&KEY[..method.key_length], text(size));
    let mut sealed = vec![0; size + TAG_LENGTH];
    match method.cipher {
        Cipher::AesGcm => AesGcm::new(key.len()).seal(key, &NONCE, &text, &mut sealed),
        Cipher::ChaCha { .. } => ChaChaPoly::new(key.len()).seal(key, &NONCE, &text, &mut sealed),
    }
    sealed
}
