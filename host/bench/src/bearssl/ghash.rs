//! GHASH, which BearSSL offers alone.

use super::{Functions, GhashFunction};

pub struct Ghash<const INSTRUCTIONS: bool>(GhashFunction);

impl<const INSTRUCTIONS: bool> Ghash<INSTRUCTIONS> {
    /// `None` where the processor has not the instructions.
    pub fn new() -> Option<Self> {
        Functions::find(INSTRUCTIONS).map(|functions| Self(functions.ghash))
    }

    /// The hash of `data`, whose last block is filled up with zeros.
    pub fn hash(&self, hash_subkey: &[u8; 16], data: &[u8]) -> [u8; 16] {
        let mut hash = [0; 16];
        let (h, input) = (hash_subkey.as_ptr().cast(), data.as_ptr().cast());
        // SAFETY: hash and subkey have 16 bytes, and `data` that length.
        unsafe { (self.0)(hash.as_mut_ptr().cast(), h, input, data.len()) }
        hash
    }
}
