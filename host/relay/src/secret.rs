//! Key material, which is overwritten.

use std::hint;

/// The longest key, in bytes.
const LONGEST: usize = 32;

/// The bytes of a key, overwritten when they are dropped.
#[derive(Clone)]
pub(crate) struct KeyBytes {
    /// The key, and zeros behind it.
    bytes: [u8; LONGEST],
    length: usize,
}

impl KeyBytes {
    /// # Panics
    ///
    /// If the key is longer than any method's.
    pub(crate) fn new(key: &[u8]) -> Self {
        let length = key.len();
        let mut bytes = [0; LONGEST];
        bytes[..length].copy_from_slice(key);
        Self { bytes, length }
    }

    pub(crate) fn as_slice(&self) -> &[u8] {
        &self.bytes[..self.length]
    }
}

impl Drop for KeyBytes {
    fn drop(&mut self) {
        wipe(&mut self.bytes);
    }
}

/// Overwrites key material that is about to be dropped.
///
/// Best effort: without `unsafe` code nothing forbids the compiler to leave the
/// write out, and copies that it made, or that were moved away, are not reached.
pub(crate) fn wipe<T: Copy + Default>(secret: &mut [T]) {
    secret.fill(T::default());
    // A use of the zeros, so that writing them is not in vain.
    hint::black_box(secret);
}
