//! AES on one block, which OpenSSL calls ECB.

use std::os::raw::c_int;

use super::{Context, Direction, EvpCipher, EvpCipherCtx};
use crate::ciphers::Block;

extern "C" {
    fn EVP_aes_128_ecb() -> *const EvpCipher;
    fn EVP_aes_256_ecb() -> *const EvpCipher;
    fn EVP_CIPHER_CTX_set_padding(ctx: *mut EvpCipherCtx, padding: c_int) -> c_int;
}

pub struct AesBlock(Context<0>);

impl Block for AesBlock {
    fn new(key_length: usize) -> Self {
        // SAFETY: the functions answer static descriptions, of ciphers with that key
        // length and without IV.
        let context = unsafe {
            let cipher = match key_length {
                16 => EVP_aes_128_ecb(),
                32 => EVP_aes_256_ecb(),
                _ => panic!("no method has a key of {key_length} bytes"),
            };
            Context::new(cipher, key_length)
        };
        // Else the last block of what is decrypted is kept back for its padding.
        // SAFETY: the context has its cipher.
        let done = unsafe { EVP_CIPHER_CTX_set_padding(context.ctx, 0) };
        assert_eq!(done, 1, "EVP_CIPHER_CTX_set_padding failed");
        Self(context)
    }

    fn encrypt(&self, key: &[u8], block: &mut [u8; 16]) {
        self.apply(Direction::Encrypt, key, block);
    }

    fn decrypt(&self, key: &[u8], block: &mut [u8; 16]) {
        self.apply(Direction::Decrypt, key, block);
    }
}

impl AesBlock {
    fn apply(&self, direction: Direction, key: &[u8], block: &mut [u8; 16]) {
        self.0.start(direction, key, &[]);
        let place = block.as_mut_ptr();
        // SAFETY: input and output are the same block.
        unsafe { self.0.update(place, place, block.len()) }
    }
}
