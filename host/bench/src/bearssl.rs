//! The few functions of BearSSL that the contestants call.
//!
//! BearSSL leaves the choice of an implementation to its caller, so both stand in
//! one process: `BearSsl<false>` and `BearSsl<true>`, without and with processor
//! instructions. Its descriptions of ciphers say how large their contexts are.

mod block;
mod chacha;
mod ctr;
mod gcm;
mod ghash;
mod hkdf;

pub use block::AesBlock;
pub use chacha::{ChaCha20, ChaChaPoly, Poly1305};
pub use ctr::AesCtr;
pub use gcm::AesGcm;
pub use ghash::Ghash;
pub use hkdf::HkdfSha1;

use std::os::raw::{c_uint, c_void};

use crate::chachas::ChaChas;
use crate::ciphers::Ciphers;
use crate::rows::Library;

/// BearSSL's ciphers, with or without processor instructions.
pub struct BearSsl<const INSTRUCTIONS: bool>;

pub type BearSslWithout = BearSsl<false>;
pub type BearSslWith = BearSsl<true>;

impl<const INSTRUCTIONS: bool> Ciphers for BearSsl<INSTRUCTIONS> {
    const LIBRARY: Library = if INSTRUCTIONS {
        Library::BearSslWith
    } else {
        Library::BearSslWithout
    };
    type Block = AesBlock<INSTRUCTIONS>;
    type Counter = AesCtr<INSTRUCTIONS>;
    type Gcm = AesGcm<INSTRUCTIONS>;
    type Hkdf = HkdfSha1;

    fn are_there() -> bool {
        Functions::find(INSTRUCTIONS).is_some()
    }
}

impl ChaChas for BearSslWithout {
    const LIBRARY: Library = Library::BearSslWithout;
    type Stream = ChaCha20;
    type Aead = ChaChaPoly;
    type Mac = Poly1305;
}

/// The names of the implementations in use: BearSSL does not tell its version.
pub const WITHOUT: &str = "aes_big (aes_small for a block that is decrypted) and ghash_ctmul64";
pub const CHACHA: &str = "chacha20_sse2 and poly1305_ctmulq";
pub const WITH: &str = "aes_x86ni and ghash_pclmul";

type Init = unsafe extern "C" fn(ctx: *mut c_void, key: *const c_void, length: usize);
type RunCbc =
    unsafe extern "C" fn(ctx: *const c_void, iv: *mut c_void, data: *mut c_void, length: usize);
type RunCtr = unsafe extern "C" fn(
    ctx: *const c_void,
    iv: *const c_void,
    counter: u32,
    data: *mut c_void,
    length: usize,
) -> u32;
type GhashFunction =
    unsafe extern "C" fn(y: *mut c_void, h: *const c_void, data: *const c_void, length: usize);

/// BearSSL's `br_block_cbcenc_class`, `br_block_cbcdec_class` and
/// `br_block_ctr_class`, which differ in the function that runs them.
#[repr(C)]
#[allow(dead_code, reason = "the layout is BearSSL's")]
struct Class<Run> {
    context_size: usize,
    block_size: c_uint,
    log_block_size: c_uint,
    init: Init,
    run: Run,
}

#[link(name = "bearssl")]
extern "C" {
    static br_aes_big_cbcenc_vtable: Class<RunCbc>;
    static br_aes_small_cbcdec_vtable: Class<RunCbc>;
    static br_aes_big_ctr_vtable: Class<RunCtr>;

    fn br_aes_x86ni_cbcenc_get_vtable() -> Option<&'static Class<RunCbc>>;
    fn br_aes_x86ni_cbcdec_get_vtable() -> Option<&'static Class<RunCbc>>;
    fn br_aes_x86ni_ctr_get_vtable() -> Option<&'static Class<RunCtr>>;

    fn br_ghash_ctmul64(y: *mut c_void, h: *const c_void, data: *const c_void, length: usize);
    fn br_ghash_pclmul_get() -> Option<GhashFunction>;
}

/// An implementation of each kind.
struct Functions {
    encrypt: &'static Class<RunCbc>,
    decrypt: &'static Class<RunCbc>,
    ctr: &'static Class<RunCtr>,
    ghash: GhashFunction,
}

impl Functions {
    /// `None` where the processor has not the instructions that are asked for.
    ///
    /// To ask the processor takes time, so this is done once for a context.
    fn find(instructions: bool) -> Option<Self> {
        if instructions {
            Self::with_instructions()
        } else {
            Some(Self::without_instructions())
        }
    }

    /// The fastest that BearSSL has in plain C on a 64-bit processor, by its headers
    /// and by measurement of all of them. Of its four AES that is `aes_big`, with large
    /// tables; the constant-time `aes_ct64` has half its speed. But `aes_big` takes
    /// long to turn a key around for decryption, so for one block `aes_small` is five
    /// times as fast. Of its three GHASH it is `ctmul64`: the others do with 32-bit
    /// products.
    fn without_instructions() -> Self {
        // SAFETY: constants of the library.
        unsafe {
            Self {
                encrypt: &br_aes_big_cbcenc_vtable,
                decrypt: &br_aes_small_cbcdec_vtable,
                ctr: &br_aes_big_ctr_vtable,
                ghash: br_ghash_ctmul64,
            }
        }
    }

    /// BearSSL answers null where the processor has them not.
    fn with_instructions() -> Option<Self> {
        // SAFETY: no arguments; the answers are constants of the library or null.
        unsafe {
            Some(Self {
                encrypt: br_aes_x86ni_cbcenc_get_vtable()?,
                decrypt: br_aes_x86ni_cbcdec_get_vtable()?,
                ctr: br_aes_x86ni_ctr_get_vtable()?,
                ghash: br_ghash_pclmul_get()?,
            })
        }
    }

    /// # Panics
    ///
    /// If the processor has not the instructions, or AES no such key length.
    fn for_key(instructions: bool, key_length: usize) -> Self {
        assert!(
            matches!(key_length, 16 | 24 | 32),
            "AES has no key of {key_length} bytes"
        );
        let functions = Self::find(instructions).expect("the processor has the instructions");
        let sizes = [
            functions.encrypt.block_size,
            functions.decrypt.block_size,
            functions.ctr.block_size,
        ];
        assert_eq!(sizes, [16; 3], "BearSSL describes other ciphers");
        functions
    }
}
