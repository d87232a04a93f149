//! AES on one block.

use super::{Class, Functions, RunCbc};
use crate::ciphers::Block;
use crate::room::Room;

/// BearSSL has no function for a block alone; CBC on one block with an IV of zeros
/// is the same.
pub struct AesBlock<const INSTRUCTIONS: bool> {
    functions: Functions,
    key_length: usize,
    encrypting: Room,
    decrypting: Room,
}

impl<const INSTRUCTIONS: bool> Block for AesBlock<INSTRUCTIONS> {
    fn new(key_length: usize) -> Self {
        let functions = Functions::for_key(INSTRUCTIONS, key_length);
        let encrypting = Room::new(functions.encrypt.context_size);
        let decrypting = Room::new(functions.decrypt.context_size);
        Self {
            functions,
            key_length,
            encrypting,
            decrypting,
        }
    }

    fn encrypt(&self, key: &[u8], block: &mut [u8; 16]) {
        self.apply(self.functions.encrypt, &self.encrypting, key, block);
    }

    fn decrypt(&self, key: &[u8], block: &mut [u8; 16]) {
        self.apply(self.functions.decrypt, &self.decrypting, key, block);
    }
}

impl<const INSTRUCTIONS: bool> AesBlock<INSTRUCTIONS> {
    /// The room must be the one that was made for the class.
    fn apply(&self, class: &Class<RunCbc>, room: &Room, key: &[u8], block: &mut [u8; 16]) {
        let key_length = self.key_length;
        assert_eq!(key.len(), key_length, "the context is for another key");
        let mut iv = [0_u8; 16];
        // SAFETY: the room has the size that the class says; AES has that key length,
        // and IV and data have that of a block.
        room.with(|context| unsafe {
            (class.init)(context, key.as_ptr().cast(), key.len());
            let (iv, data) = (iv.as_mut_ptr().cast(), block.as_mut_ptr().cast());
            (class.run)(context, iv, data, block.len());
        });
    }
}
