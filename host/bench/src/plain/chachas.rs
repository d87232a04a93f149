//! ChaCha and Poly1305 in plain Rust as a contestant, for numbers of rounds that no library
//! has.

use super::chacha::ChaCha;
use super::poly1305::Poly1305;
use crate::chachas::{
    whole_key, ChaChas, Extended, Key, Mac, OneTimeKey, Stream, KEY_LENGTH, LONG_NONCE_LENGTH,
    NONCE_LENGTH,
};
use crate::ciphers::{Aead, TAG_LENGTH};
use crate::rows::Library;

pub struct Plain<const ROUNDS: usize>;

impl<const ROUNDS: usize> Plain<ROUNDS> {
    const CIPHER: ChaCha = ChaCha { rounds: ROUNDS };
}

impl<const ROUNDS: usize> ChaChas for Plain<ROUNDS> {
    const LIBRARY: Library = Library::Plain;
    type Stream = Self;
    type Aead = Self;
    type Mac = Self;
}

impl<const ROUNDS: usize> Stream for Plain<ROUNDS> {
    fn new() -> Self {
        Self
    }

    fn message(&self, key: &Key, nonce: &[u8; NONCE_LENGTH], counter: u32, data: &mut [u8]) {
        Self::CIPHER.apply(key, nonce, counter, data);
    }
}

impl<const ROUNDS: usize> Aead for Plain<ROUNDS> {
    fn new(key_length: usize) -> Self {
        assert_eq!(key_length, KEY_LENGTH, "ChaCha has no such key");
        Self
    }

    fn seal(&self, key: &[u8], nonce: &[u8; NONCE_LENGTH], text: &[u8], out: &mut [u8]) {
        out[..text.len()].copy_from_slice(text);
        self.seal_in_place(key, nonce, out);
    }

    fn seal_in_place(&self, key: &[u8], nonce: &[u8; NONCE_LENGTH], body: &mut [u8]) {
        Self::CIPHER.seal_in_place(whole_key(key), nonce, body);
    }

    fn open(&self, key: &[u8], nonce: &[u8; NONCE_LENGTH], sealed: &[u8], out: &mut [u8]) -> bool {
        Self::CIPHER.open(whole_key(key), nonce, sealed, out)
    }
}

impl<const ROUNDS: usize> Extended for Plain<ROUNDS> {
    fn seal_extended_in_place(&self, key: &Key, nonce: &[u8; LONG_NONCE_LENGTH], body: &mut [u8]) {
        let (subkey, inner) = Self::CIPHER.extend(key, nonce);
        self.seal_in_place(&subkey, &inner, body);
    }

    fn open_extended(
        &self,
        key: &Key,
        nonce: &[u8; LONG_NONCE_LENGTH],
        sealed: &[u8],
        out: &mut [u8],
    ) -> bool {
        let (subkey, inner) = Self::CIPHER.extend(key, nonce);
        self.open(&subkey, &inner, sealed, out)
    }
}

impl<const ROUNDS: usize> Mac for Plain<ROUNDS> {
    fn new() -> Self {
        Self
    }

    fn authenticate(&self, key: &OneTimeKey, text: &[u8], tag: &mut [u8; TAG_LENGTH]) {
        let mut mac = Poly1305::new(&key.bytes);
        mac.update(text);
        *tag = mac.tag();
    }
}
