//! HKDF with SHA-1, of libgcrypt's HMAC: it has no HKDF before 1.11.

use std::os::raw::{c_int, c_uint, c_void};
use std::{ptr, slice};

use super::{check, initialise};
use crate::ciphers::Hkdf;

const SHA1: c_int = 2;
const HMAC: c_uint = 2;

/// The length of SHA-1's digests.
const DIGEST: usize = 20;

extern "C" {
    fn gcry_md_open(h: *mut *mut c_void, algo: c_int, flags: c_uint) -> c_uint;
    fn gcry_md_close(h: *mut c_void);
    fn gcry_md_setkey(h: *mut c_void, key: *const u8, length: usize) -> c_uint;
    fn gcry_md_write(h: *mut c_void, data: *const u8, length: usize);
    fn gcry_md_read(h: *mut c_void, algo: c_int) -> *const u8;
}

pub struct HkdfSha1 {
    handle: *mut c_void,
    info: &'static [u8],
}

impl HkdfSha1 {
    /// HMAC of the parts, one behind the other.
    fn hmac(&self, key: &[u8], parts: &[&[u8]]) -> [u8; DIGEST] {
        // SAFETY: the handle is open; setting a key begins a message, and all slices have
        // the lengths that are given. What is read stays until the next message.
        unsafe {
            check(gcry_md_setkey(self.handle, key.as_ptr(), key.len()));
            for part in parts {
                gcry_md_write(self.handle, part.as_ptr(), part.len());
            }
            let digest = slice::from_raw_parts(gcry_md_read(self.handle, SHA1), DIGEST);
            digest.try_into().expect("a digest has that length")
        }
    }
}

impl Hkdf for HkdfSha1 {
    fn new(info: &'static [u8]) -> Self {
        initialise();
        let mut handle = ptr::null_mut();
        // SAFETY: the handle is written where nothing fails.
        check(unsafe { gcry_md_open(&mut handle, SHA1, HMAC) });
        Self { handle, info }
    }

    fn derive(&self, key: &[u8], salt: &[u8], out: &mut [u8]) {
        let pseudorandom_key = self.hmac(salt, &[key]);
        let mut before: &[u8] = &[];
        let mut block;
        for (index, part) in (1u8..).zip(out.chunks_mut(DIGEST)) {
            block = self.hmac(&pseudorandom_key, &[before, self.info, &[index]]);
            part.copy_from_slice(&block[..part.len()]);
            before = &block;
        }
    }
}

impl Drop for HkdfSha1 {
    fn drop(&mut self) {
        // SAFETY: the handle is open, and not used again.
        unsafe { gcry_md_close(self.handle) }
    }
}
