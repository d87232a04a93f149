//! AES in counter mode.

use super::Functions;
use crate::ciphers::Counter;
use crate::room::Room;

pub struct AesCtr<const INSTRUCTIONS: bool> {
    functions: Functions,
    key_length: usize,
    room: Room,
}

impl<const INSTRUCTIONS: bool> Counter for AesCtr<INSTRUCTIONS> {
    fn new(key_length: usize) -> Self {
        let functions = Functions::for_key(INSTRUCTIONS, key_length);
        let room = Room::new(functions.ctr.context_size);
        Self {
            functions,
            key_length,
            room,
        }
    }

    fn message(&self, key: &[u8], iv: [u8; 16], data: &mut [u8]) {
        let (nonce, counter) = iv.split_at(12);
        let nonce = nonce.try_into().expect("12 bytes before the counter");
        let counter = counter.try_into().expect("4 bytes of counter");
        self.apply(key, nonce, u32::from_be_bytes(counter), data);
    }

    /// BearSSL's counter has 32 bits and wraps.
    fn apply(&self, key: &[u8], nonce: &[u8; 12], counter: u32, data: &mut [u8]) {
        let key_length = self.key_length;
        assert_eq!(key.len(), key_length, "the context is for another key");
        let class = self.functions.ctr;
        // SAFETY: the room has the size that the class says; AES has that key length,
        // and the IV is a block without the counter's four bytes.
        self.room.with(|context| unsafe {
            (class.init)(context, key.as_ptr().cast(), key.len());
            let (iv, place) = (nonce.as_ptr().cast(), data.as_mut_ptr().cast());
            (class.run)(context, iv, counter, place, data.len());
        });
    }
}
