//! The few functions of libsodium that the contestants call.
//!
//! It chooses its code by what the processor has when it is initialised, and there is no
//! telling it otherwise: so it stands among those with processor instructions.

use std::ffi::CStr;
use std::os::raw::{c_char, c_int, c_ulonglong};
use std::ptr;

use crate::chachas::{
    whole_key, ChaChas, Extended, Key, Mac, OneTimeKey, Stream, KEY_LENGTH, LONG_NONCE_LENGTH,
    NONCE_LENGTH,
};
use crate::ciphers::{Aead, TAG_LENGTH};
use crate::rows::Library;

type Encrypt = unsafe extern "C" fn(
    sealed: *mut u8,
    sealed_length: *mut c_ulonglong,
    text: *const u8,
    text_length: c_ulonglong,
    additional: *const u8,
    additional_length: c_ulonglong,
    unused: *const u8,
    nonce: *const u8,
    key: *const u8,
) -> c_int;
type Decrypt = unsafe extern "C" fn(
    text: *mut u8,
    text_length: *mut c_ulonglong,
    unused: *mut u8,
    sealed: *const u8,
    sealed_length: c_ulonglong,
    additional: *const u8,
    additional_length: c_ulonglong,
    nonce: *const u8,
    key: *const u8,
) -> c_int;

#[link(name = "sodium")]
extern "C" {
    fn sodium_init() -> c_int;
    fn sodium_version_string() -> *const c_char;
    fn sodium_runtime_has_sse2() -> c_int;
    fn sodium_runtime_has_ssse3() -> c_int;
    fn sodium_runtime_has_avx2() -> c_int;
    fn sodium_runtime_has_avx512f() -> c_int;

    fn crypto_aead_chacha20poly1305_ietf_encrypt(
        sealed: *mut u8,
        sealed_length: *mut c_ulonglong,
        text: *const u8,
        text_length: c_ulonglong,
        additional: *const u8,
        additional_length: c_ulonglong,
        unused: *const u8,
        nonce: *const u8,
        key: *const u8,
    ) -> c_int;
    fn crypto_aead_chacha20poly1305_ietf_decrypt(
        text: *mut u8,
        text_length: *mut c_ulonglong,
        unused: *mut u8,
        sealed: *const u8,
        sealed_length: c_ulonglong,
        additional: *const u8,
        additional_length: c_ulonglong,
        nonce: *const u8,
        key: *const u8,
    ) -> c_int;
    fn crypto_aead_xchacha20poly1305_ietf_encrypt(
        sealed: *mut u8,
        sealed_length: *mut c_ulonglong,
        text: *const u8,
        text_length: c_ulonglong,
        additional: *const u8,
        additional_length: c_ulonglong,
        unused: *const u8,
        nonce: *const u8,
        key: *const u8,
    ) -> c_int;
    fn crypto_aead_xchacha20poly1305_ietf_decrypt(
        text: *mut u8,
        text_length: *mut c_ulonglong,
        unused: *mut u8,
        sealed: *const u8,
        sealed_length: c_ulonglong,
        additional: *const u8,
        additional_length: c_ulonglong,
        nonce: *const u8,
        key: *const u8,
    ) -> c_int;
    fn crypto_stream_chacha20_ietf_xor_ic(
        out: *mut u8,
        text: *const u8,
        length: c_ulonglong,
        nonce: *const u8,
        counter: u32,
        key: *const u8,
    ) -> c_int;
    fn crypto_onetimeauth_poly1305(
        tag: *mut u8,
        text: *const u8,
        length: c_ulonglong,
        key: *const u8,
    ) -> c_int;
}

/// libsodium's ciphers.
pub struct Sodium;

impl ChaChas for Sodium {
    const LIBRARY: Library = Library::Sodium;
    type Stream = ChaCha20;
    type Aead = ChaChaPoly;
    type Mac = Poly1305;
}

/// Has the library choose its code.
///
/// # Panics
///
/// If it cannot.
fn initialise() {
    // SAFETY: no arguments; it may be called more than once.
    let done = unsafe { sodium_init() };
    assert!(done >= 0, "sodium_init failed");
}

/// The version of the library in use.
pub fn version() -> String {
    // SAFETY: the answer is a static string.
    let version = unsafe { CStr::from_ptr(sodium_version_string()) };
    format!("libsodium {}", version.to_string_lossy())
}

/// The processor instructions that it found, of those that its ChaCha20 and Poly1305 use.
pub fn capabilities() -> String {
    initialise();
    // SAFETY: no arguments.
    let found = unsafe {
        [
            ("SSE2", sodium_runtime_has_sse2()),
            ("SSSE3", sodium_runtime_has_ssse3()),
            ("AVX2", sodium_runtime_has_avx2()),
            ("AVX512F", sodium_runtime_has_avx512f()),
        ]
    };
    let found = found.iter().filter(|(_, has)| *has == 1);
    let names: Vec<&str> = found.map(|(name, _)| *name).collect();
    names.join(", ")
}

pub struct ChaCha20;

impl Stream for ChaCha20 {
    fn new() -> Self {
        initialise();
        Self
    }

    fn message(&self, key: &Key, nonce: &[u8; NONCE_LENGTH], counter: u32, data: &mut [u8]) {
        let (place, length) = (data.as_mut_ptr(), data.len() as c_ulonglong);
        let (nonce, key) = (nonce.as_ptr(), key.as_ptr());
        // SAFETY: key and nonce have their lengths, and input and output are the same slice.
        let done = unsafe {
            crypto_stream_chacha20_ietf_xor_ic(place, place, length, nonce, counter, key)
        };
        assert_eq!(done, 0, "crypto_stream_chacha20_ietf_xor_ic failed");
    }
}

pub struct ChaChaPoly;

impl ChaChaPoly {
    /// Seals what stands at `text`, with the function for the nonce.
    ///
    /// # Safety
    ///
    /// `text` must be readable for all of `out` but a tag, and be its place or not overlap
    /// it; the nonce must have the function's length.
    unsafe fn seal_with(
        encrypt: Encrypt,
        key: &[u8],
        nonce: &[u8],
        text: *const u8,
        out: &mut [u8],
    ) {
        let (key, length) = (whole_key(key), out.len() - TAG_LENGTH);
        // SAFETY: the caller vouches for text and nonce; there is no additional data.
        let done = unsafe {
            encrypt(
                out.as_mut_ptr(),
                ptr::null_mut(),
                text,
                length as c_ulonglong,
                ptr::null(),
                0,
                ptr::null(),
                nonce.as_ptr(),
                key.as_ptr(),
            )
        };
        assert_eq!(done, 0, "libsodium did not seal");
    }

    /// # Safety
    ///
    /// The nonce must have the function's length.
    unsafe fn open_with(
        decrypt: Decrypt,
        key: &[u8],
        nonce: &[u8],
        sealed: &[u8],
        out: &mut [u8],
    ) -> bool {
        assert_eq!(
            sealed.len(),
            out.len() + TAG_LENGTH,
            "a cipher keeps the length"
        );
        let key = whole_key(key);
        // SAFETY: the caller vouches for the nonce, `out` has room for the text, and there
        // is no additional data.
        let refused = unsafe {
            decrypt(
                out.as_mut_ptr(),
                ptr::null_mut(),
                ptr::null_mut(),
                sealed.as_ptr(),
                sealed.len() as c_ulonglong,
                ptr::null(),
                0,
                nonce.as_ptr(),
                key.as_ptr(),
            )
        };
        refused == 0
    }
}

impl Aead for ChaChaPoly {
    fn new(key_length: usize) -> Self {
        assert_eq!(key_length, KEY_LENGTH, "ChaCha has no such key");
        initialise();
        Self
    }

    fn seal(&self, key: &[u8], nonce: &[u8; NONCE_LENGTH], text: &[u8], out: &mut [u8]) {
        assert_eq!(
            text.len() + TAG_LENGTH,
            out.len(),
            "a cipher keeps the length"
        );
        let encrypt = crypto_aead_chacha20poly1305_ietf_encrypt;
        // SAFETY: the text has that length, and `out` is borrowed mutably.
        unsafe { Self::seal_with(encrypt, key, nonce, text.as_ptr(), out) }
    }

    fn seal_in_place(&self, key: &[u8], nonce: &[u8; NONCE_LENGTH], body: &mut [u8]) {
        let encrypt = crypto_aead_chacha20poly1305_ietf_encrypt;
        // SAFETY: input and output are the same place.
        unsafe { Self::seal_with(encrypt, key, nonce, body.as_ptr(), body) }
    }

    fn open(&self, key: &[u8], nonce: &[u8; NONCE_LENGTH], sealed: &[u8], out: &mut [u8]) -> bool {
        let decrypt = crypto_aead_chacha20poly1305_ietf_decrypt;
        // SAFETY: the nonce has 12 bytes.
        unsafe { Self::open_with(decrypt, key, nonce, sealed, out) }
    }
}

impl Extended for ChaChaPoly {
    fn seal_extended_in_place(&self, key: &Key, nonce: &[u8; LONG_NONCE_LENGTH], body: &mut [u8]) {
        let encrypt = crypto_aead_xchacha20poly1305_ietf_encrypt;
        // SAFETY: the nonce has 24 bytes, and input and output are the same place.
        unsafe { Self::seal_with(encrypt, key, nonce, body.as_ptr(), body) }
    }

    fn open_extended(
        &self,
        key: &Key,
        nonce: &[u8; LONG_NONCE_LENGTH],
        sealed: &[u8],
        out: &mut [u8],
    ) -> bool {
        let decrypt = crypto_aead_xchacha20poly1305_ietf_decrypt;
        // SAFETY: the nonce has 24 bytes.
        unsafe { Self::open_with(decrypt, key, nonce, sealed, out) }
    }
}

pub struct Poly1305;

impl Mac for Poly1305 {
    fn new() -> Self {
        initialise();
        Self
    }

    fn authenticate(&self, key: &OneTimeKey, text: &[u8], tag: &mut [u8; TAG_LENGTH]) {
        let (place, length) = (text.as_ptr(), text.len() as c_ulonglong);
        // SAFETY: key and tag have their lengths, and the text the one that is given.
        let done = unsafe {
            crypto_onetimeauth_poly1305(tag.as_mut_ptr(), place, length, key.bytes.as_ptr())
        };
        assert_eq!(done, 0, "crypto_onetimeauth_poly1305 failed");
    }
}
