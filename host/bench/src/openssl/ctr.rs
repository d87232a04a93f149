//! AES in counter mode.

use super::{Context, Direction, EvpCipher};
use crate::ciphers::Counter;

extern "C" {
    fn EVP_aes_128_ctr() -> *const EvpCipher;
    fn EVP_aes_192_ctr() -> *const EvpCipher;
    fn EVP_aes_256_ctr() -> *const EvpCipher;
}

pub struct AesCtr(Context<16>);

impl Counter for AesCtr {
    fn new(key_length: usize) -> Self {
        // SAFETY: the functions answer static descriptions, of ciphers with that key
        // length and IVs of 16 bytes.
        unsafe {
            let cipher = match key_length {
                16 => EVP_aes_128_ctr(),
                24 => EVP_aes_192_ctr(),
                32 => EVP_aes_256_ctr(),
                _ => panic!("AES has no key of {key_length} bytes"),
            };
            Self(Context::new(cipher, key_length))
        }
    }

    fn message(&self, key: &[u8], iv: [u8; 16], data: &mut [u8]) {
        self.0.start(Direction::Encrypt, key, &iv);
        let place = data.as_mut_ptr();
        // SAFETY: input and output are the same slice.
        unsafe { self.0.update(place, place, data.len()) }
    }
}
