//! Poly1305.

use std::os::raw::{c_char, c_int, c_void};
use std::ptr;

use crate::chachas::{Mac, OneTimeKey};
use crate::ciphers::TAG_LENGTH;

#[repr(C)]
struct EvpMac {
    _opaque: [u8; 0],
}

#[repr(C)]
struct EvpMacCtx {
    _opaque: [u8; 0],
}

extern "C" {
    fn EVP_MAC_fetch(
        library: *mut c_void,
        algorithm: *const c_char,
        properties: *const c_char,
    ) -> *mut EvpMac;
    fn EVP_MAC_free(mac: *mut EvpMac);
    fn EVP_MAC_CTX_new(mac: *mut EvpMac) -> *mut EvpMacCtx;
    fn EVP_MAC_CTX_free(ctx: *mut EvpMacCtx);
    fn EVP_MAC_init(
        ctx: *mut EvpMacCtx,
        key: *const u8,
        key_len: usize,
        params: *const c_void,
    ) -> c_int;
    fn EVP_MAC_update(ctx: *mut EvpMacCtx, data: *const u8, data_len: usize) -> c_int;
    fn EVP_MAC_final(
        ctx: *mut EvpMacCtx,
        out: *mut u8,
        out_len: *mut usize,
        out_size: usize,
    ) -> c_int;
}

pub struct Poly1305(*mut EvpMacCtx);

impl Mac for Poly1305 {
    fn new() -> Self {
        // SAFETY: the name is a string of C; null is refused; the context keeps what it
        // needs of the description.
        unsafe {
            let mac = EVP_MAC_fetch(ptr::null_mut(), c"POLY1305".as_ptr(), ptr::null());
            assert!(!mac.is_null(), "EVP_MAC_fetch failed");
            let context = Self(EVP_MAC_CTX_new(mac));
            EVP_MAC_free(mac);
            assert!(!context.0.is_null(), "EVP_MAC_CTX_new failed");
            context
        }
    }

    fn authenticate(&self, key: &OneTimeKey, text: &[u8], tag: &mut [u8; TAG_LENGTH]) {
        let (key, mut length) = (&key.bytes, 0);
        // SAFETY: the context is not Sync, so nobody else uses it meanwhile; key, text and
        // tag have the lengths that are given.
        let done = unsafe {
            EVP_MAC_init(self.0, key.as_ptr(), key.len(), ptr::null()) == 1
                && EVP_MAC_update(self.0, text.as_ptr(), text.len()) == 1
                && EVP_MAC_final(self.0, tag.as_mut_ptr(), &mut length, tag.len()) == 1
        };
        assert!(done && length == TAG_LENGTH, "EVP_MAC failed");
    }
}

impl Drop for Poly1305 {
    fn drop(&mut self) {
        // SAFETY: the context came from EVP_MAC_CTX_new and is freed once.
        unsafe { EVP_MAC_CTX_free(self.0) }
    }
}
