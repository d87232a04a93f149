//! AES on one block.

use super::{aes, Apply, Cipher, SetKey};
use crate::ciphers::Block;
use crate::room::Room;

pub struct AesBlock {
    cipher: &'static Cipher,
    room: Room,
}

impl Block for AesBlock {
    fn new(key_length: usize) -> Self {
        let cipher = aes(key_length);
        let room = Room::new(cipher.context_size as usize);
        Self { cipher, room }
    }

    fn encrypt(&self, key: &[u8], block: &mut [u8; 16]) {
        self.apply(self.cipher.set_encrypt_key, self.cipher.encrypt, key, block);
    }

    fn decrypt(&self, key: &[u8], block: &mut [u8; 16]) {
        self.apply(self.cipher.set_decrypt_key, self.cipher.decrypt, key, block);
    }
}

impl AesBlock {
    fn apply(&self, set_key: SetKey, apply: Apply, key: &[u8], block: &mut [u8; 16]) {
        let key_length = self.cipher.key_size as usize;
        assert_eq!(key.len(), key_length, "the context is for another key");
        let place = block.as_mut_ptr();
        // SAFETY: both functions are of the cipher that the room was made for; the
        // key has its length, and input and output are the same block.
        self.room.with(|context| unsafe {
            set_key(context, key.as_ptr());
            apply(context, block.len(), place, place);
        });
    }
}
