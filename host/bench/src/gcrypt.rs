//! The few functions of libgcrypt that the contestants call, with all hardware features
//! off: it is told so before it is initialised, once for a process.

mod cipher;
mod hkdf;

pub use cipher::{AesBlock, AesCtr, AesGcm};
pub use hkdf::HkdfSha1;

use std::ffi::CStr;
use std::os::raw::{c_char, c_int, c_uint};
use std::sync::Once;

use crate::ciphers::Ciphers;
use crate::rows::Library;

/// libgcrypt's ciphers.
pub struct Gcrypt;

impl Ciphers for Gcrypt {
    const LIBRARY: Library = Library::Gcrypt;
    type Block = AesBlock;
    type Counter = AesCtr;
    type Gcm = AesGcm;
    type Hkdf = HkdfSha1;
}

const DISABLE_SECURE_MEMORY: c_int = 37;
const INITIALIZATION_FINISHED: c_int = 38;
const DISABLE_HARDWARE_FEATURES: c_int = 63;

/// The features that are switched off.
pub const FEATURES_OFF: &CStr = c"all";

#[link(name = "gcrypt")]
extern "C" {
    fn gcry_control(command: c_int, ...) -> c_uint;
    fn gcry_check_version(required: *const c_char) -> *const c_char;
}

/// The version of the library in use.
///
/// # Panics
///
/// If the library is older than its functions declared here.
pub fn version() -> String {
    initialise();
    // SAFETY: null asks for no version; the answer is a constant string.
    let version = unsafe { CStr::from_ptr(gcry_check_version(std::ptr::null())) };
    format!("libgcrypt {}", version.to_string_lossy())
}

fn initialise() {
    static ONCE: Once = Once::new();
    ONCE.call_once(|| {
        let none = std::ptr::null::<c_char>();
        // SAFETY: these commands have these arguments, and come in this order; the names
        // are strings.
        unsafe {
            let refused = gcry_control(DISABLE_HARDWARE_FEATURES, FEATURES_OFF.as_ptr(), none);
            assert_eq!(refused, 0, "libgcrypt keeps its hardware features");
            let version = gcry_check_version(c"1.10.0".as_ptr());
            assert!(!version.is_null(), "libgcrypt is older than 1.10");
            gcry_control(DISABLE_SECURE_MEMORY, 0);
            gcry_control(INITIALIZATION_FINISHED, 0);
        }
    });
}

/// # Panics
///
/// If libgcrypt reports an error.
fn check(error: c_uint) {
    assert_eq!(error, 0, "libgcrypt reports an error");
}
