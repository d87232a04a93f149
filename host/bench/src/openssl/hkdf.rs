//! HKDF with SHA-1.

use std::ffi::CStr;
use std::os::raw::{c_char, c_int, c_uint, c_void};
use std::ptr;

use crate::ciphers::Hkdf;

#[repr(C)]
struct EvpKdf {
    _opaque: [u8; 0],
}

#[repr(C)]
struct EvpKdfCtx {
    _opaque: [u8; 0],
}

/// OpenSSL's `OSSL_PARAM`: a named value.
#[repr(C)]
struct Param {
    key: *const c_char,
    data_type: c_uint,
    data: *mut c_void,
    data_size: usize,
    return_size: usize,
}

extern "C" {
    fn EVP_KDF_fetch(
        library: *mut c_void,
        algorithm: *const c_char,
        properties: *const c_char,
    ) -> *mut EvpKdf;
    fn EVP_KDF_free(kdf: *mut EvpKdf);
    fn EVP_KDF_CTX_new(kdf: *mut EvpKdf) -> *mut EvpKdfCtx;
    fn EVP_KDF_CTX_free(ctx: *mut EvpKdfCtx);
    fn EVP_KDF_CTX_set_params(ctx: *mut EvpKdfCtx, params: *const Param) -> c_int;
    fn EVP_KDF_derive(
        ctx: *mut EvpKdfCtx,
        key: *mut u8,
        key_len: usize,
        params: *const Param,
    ) -> c_int;
}

// Types of a parameter.
const UTF8_STRING: c_uint = 4;
const OCTET_STRING: c_uint = 5;

impl Param {
    /// OpenSSL copies the bytes, or only reads them.
    fn new(key: &'static CStr, data_type: c_uint, bytes: &[u8]) -> Self {
        Self {
            key: key.as_ptr(),
            data_type,
            data: bytes.as_ptr().cast_mut().cast(),
            data_size: bytes.len(),
            return_size: usize::MAX,
        }
    }

    /// Behind the last one.
    fn end() -> Self {
        Self {
            key: ptr::null(),
            data_type: 0,
            data: ptr::null_mut(),
            data_size: 0,
            return_size: 0,
        }
    }
}

pub struct HkdfSha1(*mut EvpKdfCtx);

impl Hkdf for HkdfSha1 {
    /// The digest and the info are chosen here once: to name the digest at each call
    /// would look it up in the library's tables again.
    fn new(info: &'static [u8]) -> Self {
        let params = [
            // The zero behind it is read too.
            Param::new(c"digest", UTF8_STRING, c"SHA1".to_bytes()),
            Param::new(c"info", OCTET_STRING, info),
            Param::end(),
        ];
        // SAFETY: the names are strings of C; null is refused; the context keeps what it
        // needs of the description and copies the parameters.
        unsafe {
            let kdf = EVP_KDF_fetch(ptr::null_mut(), c"HKDF".as_ptr(), ptr::null());
            assert!(!kdf.is_null(), "EVP_KDF_fetch failed");
            let context = Self(EVP_KDF_CTX_new(kdf));
            EVP_KDF_free(kdf);
            assert!(!context.0.is_null(), "EVP_KDF_CTX_new failed");
            let done = EVP_KDF_CTX_set_params(context.0, params.as_ptr());
            assert_eq!(done, 1, "EVP_KDF_CTX_set_params failed");
            context
        }
    }

    fn derive(&self, key: &[u8], salt: &[u8], out: &mut [u8]) {
        let params = [
            Param::new(c"key", OCTET_STRING, key),
            Param::new(c"salt", OCTET_STRING, salt),
            Param::end(),
        ];
        // SAFETY: the context is not Sync, so nobody else uses it meanwhile; key and salt
        // are copied, and `out` has that length.
        let done = unsafe { EVP_KDF_derive(self.0, out.as_mut_ptr(), out.len(), params.as_ptr()) };
        assert_eq!(done, 1, "EVP_KDF_derive failed");
    }
}

impl Drop for HkdfSha1 {
    fn drop(&mut self) {
        // SAFETY: the context came from EVP_KDF_CTX_new and is freed once.
        unsafe { EVP_KDF_CTX_free(self.0) }
    }
}
