//! ChaCha20's key stream.

use std::os::raw::c_void;

use super::check_version;
use crate::chachas::{Key, Stream, NONCE_LENGTH};
use crate::room::Room;

/// nettle's `struct chacha_ctx`: the state's 16 words.
const CONTEXT: usize = 64;

extern "C" {
    fn nettle_chacha_set_key(ctx: *mut c_void, key: *const u8);
    fn nettle_chacha_set_nonce96(ctx: *mut c_void, nonce: *const u8);
    fn nettle_chacha_set_counter32(ctx: *mut c_void, counter: *const u8);
    fn nettle_chacha_crypt32(ctx: *mut c_void, length: usize, dst: *mut u8, src: *const u8);
}

pub struct ChaCha20(Room);

impl Stream for ChaCha20 {
    fn new() -> Self {
        check_version();
        Self(Room::new(CONTEXT))
    }

    fn message(&self, key: &Key, nonce: &[u8; NONCE_LENGTH], counter: u32, data: &mut [u8]) {
        let (counter, place) = (counter.to_le_bytes(), data.as_mut_ptr());
        // SAFETY: the room has the context's size; key, nonce and counter have their
        // lengths, and input and output are the same slice.
        self.0.with(|context| unsafe {
            nettle_chacha_set_key(context, key.as_ptr());
            nettle_chacha_set_nonce96(context, nonce.as_ptr());
            nettle_chacha_set_counter32(context, counter.as_ptr());
            nettle_chacha_crypt32(context, data.len(), place, place);
        });
    }
}
