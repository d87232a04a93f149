//! AES in counter mode.

use std::os::raw::c_void;

use super::{aes, Apply, Cipher};
use crate::ciphers::Counter;
use crate::room::Room;

extern "C" {
    fn nettle_ctr_crypt(
        ctx: *const c_void,
        encrypt: Apply,
        block_size: usize,
        counter: *mut u8,
        length: usize,
        dst: *mut u8,
        src: *const u8,
    );
}

pub struct AesCtr {
    cipher: &'static Cipher,
    room: Room,
}

impl Counter for AesCtr {
    fn new(key_length: usize) -> Self {
        let cipher = aes(key_length);
        let room = Room::new(cipher.context_size as usize);
        Self { cipher, room }
    }

    fn message(&self, key: &[u8], mut iv: [u8; 16], data: &mut [u8]) {
        let key_length = self.cipher.key_size as usize;
        assert_eq!(key.len(), key_length, "the context is for another key");
        let place = data.as_mut_ptr();
        // SAFETY: both functions are of the cipher that the room was made for; the
        // key has its length, the counter that of a block, and input and output are
        // the same slice.
        self.room.with(|context| unsafe {
            (self.cipher.set_encrypt_key)(context, key.as_ptr());
            nettle_ctr_crypt(
                context,
                self.cipher.encrypt,
                iv.len(),
                iv.as_mut_ptr(),
                data.len(),
                place,
                place,
            );
        });
    }
}
