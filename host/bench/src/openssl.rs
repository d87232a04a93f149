//! The few functions of OpenSSL's libcrypto that the contestants call.

mod aead;
mod block;
mod chacha;
mod ctr;
mod hkdf;
mod poly1305;

pub use aead::{AesGcm, ChaChaPoly};
pub use block::AesBlock;
pub use chacha::ChaCha20;
pub use ctr::AesCtr;
pub use hkdf::HkdfSha1;
pub use poly1305::Poly1305;

use std::ffi::CStr;
use std::os::raw::{c_char, c_int, c_uchar, c_void};
use std::ptr;

use crate::chachas::ChaChas;
use crate::ciphers::Ciphers;
use crate::rows::Library;

/// OpenSSL's ciphers.
pub struct OpenSsl;

impl Ciphers for OpenSsl {
    const LIBRARY: Library = Library::OpenSsl;
    type Block = AesBlock;
    type Counter = AesCtr;
    type Gcm = AesGcm;
    type Hkdf = HkdfSha1;
}

impl ChaChas for OpenSsl {
    const LIBRARY: Library = Library::OpenSsl;
    type Stream = ChaCha20;
    type Aead = ChaChaPoly;
    type Mac = Poly1305;
}

/// The environment variable from which OpenSSL learns, when it is loaded, which
/// processor instructions it may use.
pub const CAPABILITIES: &str = "OPENSSL_ia32cap";

/// The value of [`CAPABILITIES`] that leaves it the base set only: neither AES
/// and carry-less multiplication nor SSSE3 and AVX.
pub const NO_CAPABILITIES: &str = "0:0";

// Selectors of OpenSSL_version.
const OPENSSL_VERSION: c_int = 0;
const OPENSSL_CPU_INFO: c_int = 9;

#[repr(C)]
struct EvpCipherCtx {
    _opaque: [u8; 0],
}

#[repr(C)]
pub(crate) struct EvpCipher {
    _opaque: [u8; 0],
}

#[link(name = "crypto")]
extern "C" {
    fn EVP_CIPHER_CTX_new() -> *mut EvpCipherCtx;
    fn EVP_CIPHER_CTX_free(ctx: *mut EvpCipherCtx);
    fn EVP_CipherInit_ex(
        ctx: *mut EvpCipherCtx,
        cipher: *const EvpCipher,
        engine: *mut c_void,
        key: *const c_uchar,
        iv: *const c_uchar,
        encrypt: c_int,
    ) -> c_int;
    fn EVP_CipherUpdate(
        ctx: *mut EvpCipherCtx,
        out: *mut c_uchar,
        out_len: *mut c_int,
        input: *const c_uchar,
        input_len: c_int,
    ) -> c_int;
    fn OpenSSL_version(selector: c_int) -> *const c_char;
}

/// The version of the library in use.
pub fn version() -> String {
    text(OPENSSL_VERSION)
}

/// The processor instructions that OpenSSL uses in this process, in its notation.
pub fn capabilities() -> String {
    text(OPENSSL_CPU_INFO)
        .trim_start_matches("CPUINFO: ")
        .to_string()
}

fn text(selector: c_int) -> String {
    // SAFETY: OpenSSL_version answers every selector with a static string.
    let text = unsafe { CStr::from_ptr(OpenSSL_version(selector)) };
    text.to_string_lossy().into_owned()
}

/// A context for one cipher, whose IV has `IV` bytes; 0 for a cipher without one.
struct Context<const IV: usize> {
    ctx: *mut EvpCipherCtx,
    key_length: usize,
}

#[derive(Clone, Copy)]
enum Direction {
    Decrypt = 0,
    Encrypt = 1,
}

impl<const IV: usize> Context<IV> {
    /// # Safety
    ///
    /// The cipher must be one with that key length and IVs of `IV` bytes.
    unsafe fn new(cipher: *const EvpCipher, key_length: usize) -> Self {
        // SAFETY: no argument; null is refused below.
        let ctx = unsafe { EVP_CIPHER_CTX_new() };
        assert!(!ctx.is_null(), "EVP_CIPHER_CTX_new failed");
        let context = Self { ctx, key_length };
        // The cipher is chosen here once: to name it at each call would look it up
        // in the library's tables again, which shows in short messages.
        // SAFETY: without key and IV only the cipher is set.
        unsafe { context.init(cipher, ptr::null(), ptr::null(), Direction::Encrypt) };
        context
    }

    /// Begins a message. The key is expanded.
    ///
    /// # Panics
    ///
    /// If the key has another length than the cipher's.
    fn start(&self, direction: Direction, key: &[u8], iv: &[u8; IV]) {
        assert_eq!(
            key.len(),
            self.key_length,
            "the context is for another key length"
        );
        // An empty array's place is no place that C could read from.
        let iv = if IV == 0 { ptr::null() } else { iv.as_ptr() };
        // SAFETY: key and IV have the lengths of the cipher, and are copied.
        unsafe { self.init(ptr::null(), key.as_ptr(), iv, direction) };
    }

    /// # Safety
    ///
    /// As of EVP_CipherInit_ex; key and IV must be null or have the cipher's lengths.
    unsafe fn init(
        &self,
        cipher: *const EvpCipher,
        key: *const c_uchar,
        iv: *const c_uchar,
        direction: Direction,
    ) {
        // SAFETY: the context is not Sync, so nobody else uses it meanwhile; the
        // caller vouches for the rest.
        let done = unsafe {
            EVP_CipherInit_ex(
                self.ctx,
                cipher,
                ptr::null_mut(),
                key,
                iv,
                direction as c_int,
            )
        };
        assert_eq!(done, 1, "EVP_CipherInit_ex failed");
    }

    /// Works on `length` bytes, of a mode that writes as many as it reads.
    ///
    /// # Safety
    ///
    /// `input` must be readable and `output` writable for `length` bytes; they are
    /// the same place or do not overlap. For an AEAD's additional data `output` is null.
    unsafe fn update(&self, input: *const u8, output: *mut u8, length: usize) {
        let length = c_int::try_from(length).expect("data fits OpenSSL's int");
        let mut written = 0;
        // SAFETY: the caller vouches for the buffers.
        let done = unsafe { EVP_CipherUpdate(self.ctx, output, &mut written, input, length) };
        assert_eq!((done, written), (1, length), "EVP_CipherUpdate failed");
    }
}

impl<const IV: usize> Drop for Context<IV> {
    fn drop(&mut self) {
        // SAFETY: the context came from EVP_CIPHER_CTX_new and is freed once.
        unsafe { EVP_CIPHER_CTX_free(self.ctx) }
    }
}
