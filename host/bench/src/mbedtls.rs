//! The few functions of mbedTLS that the contestants call. It cannot be told to leave the
//! processor's AES instructions, so it stands with them alone.

mod cipher;
mod hkdf;

pub use cipher::{AesBlock, AesCtr, AesGcm};
pub use hkdf::HkdfSha1;

use std::os::raw::{c_int, c_uint};

use crate::ciphers::Ciphers;
use crate::rows::Library;

/// mbedTLS's ciphers.
pub struct MbedTls;

impl Ciphers for MbedTls {
    const LIBRARY: Library = Library::MbedTls;
    type Block = AesBlock;
    type Counter = AesCtr;
    type Gcm = AesGcm;
    type Hkdf = HkdfSha1;
}

/// The version whose functions are declared here. Another one has other contexts.
const MAJOR: c_uint = 2;

#[link(name = "mbedcrypto")]
extern "C" {
    fn mbedtls_version_get_number() -> c_uint;
}

/// The version of the library in use.
pub fn version() -> String {
    // SAFETY: no arguments.
    let number = unsafe { mbedtls_version_get_number() };
    let [major, minor, patch, _] = number.to_be_bytes();
    format!("mbedTLS {major}.{minor}.{patch}")
}

/// # Panics
///
/// If the library is not the one that is declared here.
fn check_version() {
    // SAFETY: no arguments.
    let major = unsafe { mbedtls_version_get_number() } >> 24;
    assert_eq!(major, MAJOR, "the declarations are for another mbedTLS");
}

/// # Panics
///
/// If mbedTLS reports an error.
fn check(error: c_int) {
    assert_eq!(error, 0, "mbedTLS reports an error");
}
