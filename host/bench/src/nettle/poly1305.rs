//! Poly1305, which nettle has with AES only: the second half of its one-time key is a block
//! under an AES key.

use std::os::raw::c_void;

use super::check_version;
use crate::chachas::{Mac, OneTimeKey};
use crate::ciphers::TAG_LENGTH;
use crate::room::Room;

/// More than nettle's `struct poly1305_aes_ctx`, which is an expanded key of AES-128 (176
/// bytes) and some 100 bytes. Only pointers are passed, so more room is as good.
const ROOM: usize = 1_024;

extern "C" {
    fn nettle_poly1305_aes_set_key(ctx: *mut c_void, key: *const u8);
    fn nettle_poly1305_aes_set_nonce(ctx: *mut c_void, nonce: *const u8);
    fn nettle_poly1305_aes_update(ctx: *mut c_void, length: usize, data: *const u8);
    fn nettle_poly1305_aes_digest(ctx: *mut c_void, length: usize, digest: *mut u8);
}

pub struct Poly1305(Room);

impl Mac for Poly1305 {
    fn new() -> Self {
        check_version();
        Self(Room::new(ROOM))
    }

    fn authenticate(&self, key: &OneTimeKey, text: &[u8], tag: &mut [u8; TAG_LENGTH]) {
        // The AES key, and the first half of the one-time key.
        let mut both = [0; 32];
        both[..16].copy_from_slice(&key.aes_key);
        both[16..].copy_from_slice(&key.bytes[..16]);
        // SAFETY: the room is larger than the context; key and block have their lengths,
        // text and tag those that are given.
        self.0.with(|context| unsafe {
            nettle_poly1305_aes_set_key(context, both.as_ptr());
            nettle_poly1305_aes_set_nonce(context, key.block.as_ptr());
            nettle_poly1305_aes_update(context, text.len(), text.as_ptr());
            nettle_poly1305_aes_digest(context, tag.len(), tag.as_mut_ptr());
        });
    }
}
