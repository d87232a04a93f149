//! ChaCha20's key stream.

use super::{Context, Direction, EvpCipher};
use crate::chachas::{Key, Stream, KEY_LENGTH, NONCE_LENGTH};

extern "C" {
    fn EVP_chacha20() -> *const EvpCipher;
}

pub struct ChaCha20(Context<16>);

impl Stream for ChaCha20 {
    fn new() -> Self {
        // SAFETY: the function answers a static description, of a cipher with that key
        // length and IVs of 16 bytes.
        unsafe { Self(Context::new(EVP_chacha20(), KEY_LENGTH)) }
    }

    fn message(&self, key: &Key, nonce: &[u8; NONCE_LENGTH], counter: u32, data: &mut [u8]) {
        let mut iv = [0; 16];
        iv[..4].copy_from_slice(&counter.to_le_bytes());
        iv[4..].copy_from_slice(nonce);
        self.0.start(Direction::Encrypt, key, &iv);
        let place = data.as_mut_ptr();
        // SAFETY: input and output are the same slice.
        unsafe { self.0.update(place, place, data.len()) }
    }
}
