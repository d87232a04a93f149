//! The few functions of nettle that the contestants call.
//!
//! They are reached through nettle's descriptions of its ciphers, which say how
//! large their contexts are: so no size stands here that a later nettle could
//! outgrow.

mod aead;
mod block;
mod chacha;
mod ctr;
mod hkdf;
mod poly1305;

pub use aead::{AesGcm, ChaChaPoly};
pub use block::AesBlock;
pub use chacha::ChaCha20;
pub use ctr::AesCtr;
pub use hkdf::HkdfSha1;
pub use poly1305::Poly1305;

use std::os::raw::{c_char, c_int, c_uint, c_void};

use crate::chachas::ChaChas;
use crate::ciphers::Ciphers;
use crate::rows::Library;

/// nettle's ciphers.
pub struct Nettle;

impl Ciphers for Nettle {
    const LIBRARY: Library = Library::Nettle;
    type Block = AesBlock;
    type Counter = AesCtr;
    type Gcm = AesGcm;
    type Hkdf = HkdfSha1;
}

impl ChaChas for Nettle {
    const LIBRARY: Library = Library::Nettle;
    type Stream = ChaCha20;
    type Aead = ChaChaPoly;
    type Mac = Poly1305;
}

/// The environment variable from which nettle learns, when it is loaded, which
/// processor instructions it may use.
pub const CAPABILITIES: &str = "NETTLE_FAT_OVERRIDE";

/// The value of [`CAPABILITIES`] that names none of the instructions it knows.
pub const NO_CAPABILITIES: &str = "none";

/// The version whose descriptions and functions are declared here. Another one has
/// other arguments.
const MAJOR: c_int = 3;

type SetKey = unsafe extern "C" fn(ctx: *mut c_void, key: *const u8);
type Apply = unsafe extern "C" fn(ctx: *const c_void, length: usize, dst: *mut u8, src: *const u8);

/// nettle's `struct nettle_cipher`.
#[repr(C)]
#[allow(dead_code, reason = "the layout is nettle's")]
struct Cipher {
    name: *const c_char,
    context_size: c_uint,
    block_size: c_uint,
    key_size: c_uint,
    set_encrypt_key: SetKey,
    set_decrypt_key: SetKey,
    encrypt: Apply,
    decrypt: Apply,
}

#[link(name = "nettle")]
extern "C" {
    static nettle_aes128: Cipher;
    static nettle_aes192: Cipher;
    static nettle_aes256: Cipher;

    fn nettle_version_major() -> c_int;
    fn nettle_version_minor() -> c_int;
}

/// The version of the library in use.
pub fn version() -> String {
    // SAFETY: no arguments.
    let (major, minor) = unsafe { (nettle_version_major(), nettle_version_minor()) };
    format!("nettle {major}.{minor}")
}

/// # Panics
///
/// If the library is not the one that is declared here.
fn check_version() {
    // SAFETY: no arguments.
    let major = unsafe { nettle_version_major() };
    assert_eq!(major, MAJOR, "the declarations are for another nettle");
}

/// # Panics
///
/// If AES has no such key length.
fn aes(key_length: usize) -> &'static Cipher {
    check_version();
    // SAFETY: constants of the library, of the version that is declared.
    let cipher = unsafe {
        match key_length {
            16 => &nettle_aes128,
            24 => &nettle_aes192,
            32 => &nettle_aes256,
            _ => panic!("AES has no key of {key_length} bytes"),
        }
    };
    let sizes = (cipher.key_size as usize, cipher.block_size);
    assert_eq!(sizes, (key_length, 16), "nettle describes another cipher");
    cipher
}
