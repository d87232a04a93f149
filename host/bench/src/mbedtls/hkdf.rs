//! HKDF with SHA-1.

use std::os::raw::{c_int, c_void};

use super::{check, check_version};
use crate::ciphers::Hkdf;

const SHA1: c_int = 4;

extern "C" {
    fn mbedtls_md_info_from_type(md: c_int) -> *const c_void;
    fn mbedtls_hkdf(
        md: *const c_void,
        salt: *const u8,
        salt_length: usize,
        key: *const u8,
        key_length: usize,
        info: *const u8,
        info_length: usize,
        out: *mut u8,
        length: usize,
    ) -> c_int;
}

pub struct HkdfSha1 {
    digest: *const c_void,
    info: &'static [u8],
}

impl Hkdf for HkdfSha1 {
    fn new(info: &'static [u8]) -> Self {
        check_version();
        // SAFETY: the answer is a constant of the library, or null.
        let digest = unsafe { mbedtls_md_info_from_type(SHA1) };
        assert!(!digest.is_null(), "mbedTLS has no SHA-1");
        Self { digest, info }
    }

    fn derive(&self, key: &[u8], salt: &[u8], out: &mut [u8]) {
        // SAFETY: the digest is SHA-1's, and all slices have the lengths that are given.
        check(unsafe {
            mbedtls_hkdf(
                self.digest,
                salt.as_ptr(),
                salt.len(),
                key.as_ptr(),
                key.len(),
                self.info.as_ptr(),
                self.info.len(),
                out.as_mut_ptr(),
                out.len(),
            )
        });
    }
}
