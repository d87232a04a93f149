//! The body of methods 3 to 5: a nonce of 24 bytes before it, the shared key, and both IDs at
//! the start of the plaintext.

use super::{Body, Separate, SEPARATE_LENGTH};
use crate::chachas::{whole_key, ChaChas, Extended, KEY_LENGTH, LONG_NONCE_LENGTH};
use crate::ciphers::Aead;
use crate::plain::Refusal;

/// A host would draw another one for each datagram.
pub const LONG_NONCE: [u8; LONG_NONCE_LENGTH] = *b"twenty-four for a nonce!";

pub struct ChaChaBody<C: ChaChas> {
    aead: C::Aead,
}

impl<C: ChaChas> Body for ChaChaBody<C> {
    const LEAD: usize = LONG_NONCE_LENGTH;
    const START: usize = SEPARATE_LENGTH;

    fn new(key_length: usize) -> Self {
        assert_eq!(key_length, KEY_LENGTH, "no method has such a key");
        Self {
            aead: C::Aead::new(key_length),
        }
    }

    fn seal_in_place(&self, key: &[u8], separate: Separate, datagram: &mut [u8]) {
        let (front, body) = datagram
            .split_first_chunk_mut()
            .expect("the nonce has room");
        *front = LONG_NONCE;
        body[..SEPARATE_LENGTH].copy_from_slice(&separate.bytes());
        self.aead
            .seal_extended_in_place(whole_key(key), front, body);
    }

    /// A plaintext that is too short for the IDs is too short for a header.
    fn open(&self, key: &[u8], datagram: &[u8], plain: &mut [u8]) -> Result<Separate, Refusal> {
        let (nonce, body) = datagram.split_first_chunk().expect("the nonce is there");
        if !self.aead.open_extended(whole_key(key), nonce, body, plain) {
            return Err(Refusal::NotAuthentic);
        }
        let ids = plain.first_chunk().unwrap_or(&[0; SEPARATE_LENGTH]);
        Ok(Separate::of(ids))
    }
}
