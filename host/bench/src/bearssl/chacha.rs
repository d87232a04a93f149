//! ChaCha20 and Poly1305.
//!
//! BearSSL has them in plain C, and ChaCha20 also with SSE2, which every processor of the
//! kind has on which this runs: so that is no processor instruction of its own here, and
//! there is one column. Of its four Poly1305 `ctmulq` has the products of 64 bits.

use std::os::raw::{c_int, c_void};
use std::ptr;

use crate::chachas::{whole_key, Extended, Key, Mac, OneTimeKey, Stream, KEY_LENGTH, NONCE_LENGTH};
use crate::ciphers::{Aead, TAG_LENGTH};

type ChaChaFunction = unsafe extern "C" fn(
    key: *const c_void,
    nonce: *const c_void,
    counter: u32,
    data: *mut c_void,
    length: usize,
) -> u32;

/// The whole AEAD, in place, with the ChaCha20 that it is given.
type AeadFunction = unsafe extern "C" fn(
    key: *const c_void,
    nonce: *const c_void,
    data: *mut c_void,
    length: usize,
    additional: *const c_void,
    additional_length: usize,
    tag: *mut c_void,
    chacha: ChaChaFunction,
    encrypt: c_int,
);

extern "C" {
    fn br_chacha20_sse2_get() -> Option<ChaChaFunction>;
    fn br_poly1305_ctmulq_get() -> Option<AeadFunction>;
}

fn chacha() -> ChaChaFunction {
    // SAFETY: no arguments.
    unsafe { br_chacha20_sse2_get() }.expect("the processor has SSE2")
}

fn poly1305() -> AeadFunction {
    // SAFETY: no arguments.
    unsafe { br_poly1305_ctmulq_get() }.expect("the processor has 64 bits")
}

pub struct ChaCha20(ChaChaFunction);

impl Stream for ChaCha20 {
    fn new() -> Self {
        Self(chacha())
    }

    fn message(&self, key: &Key, nonce: &[u8; NONCE_LENGTH], counter: u32, data: &mut [u8]) {
        let (key, nonce) = (key.as_ptr().cast(), nonce.as_ptr().cast());
        // SAFETY: key and nonce have their lengths, and `data` the one that is given.
        unsafe { (self.0)(key, nonce, counter, data.as_mut_ptr().cast(), data.len()) };
    }
}

/// It works in place only, so what comes from another place is copied first.
pub struct ChaChaPoly {
    chacha: ChaChaFunction,
    poly1305: AeadFunction,
}

#[derive(Clone, Copy)]
enum Direction {
    Decrypt = 0,
    Encrypt = 1,
}

impl ChaChaPoly {
    /// Works in place, and answers the tag.
    fn run(
        &self,
        direction: Direction,
        key: &[u8],
        nonce: &[u8; NONCE_LENGTH],
        data: &mut [u8],
    ) -> [u8; TAG_LENGTH] {
        let (key, mut tag) = (whole_key(key), [0; TAG_LENGTH]);
        // SAFETY: key, nonce and tag have their lengths, and `data` the one that is given;
        // there is no additional data.
        unsafe {
            (self.poly1305)(
                key.as_ptr().cast(),
                nonce.as_ptr().cast(),
                data.as_mut_ptr().cast(),
                data.len(),
                ptr::null(),
                0,
                tag.as_mut_ptr().cast(),
                self.chacha,
                direction as c_int,
            );
        }
        tag
    }
}

impl Extended for ChaChaPoly {}

impl Aead for ChaChaPoly {
    fn new(key_length: usize) -> Self {
        assert_eq!(key_length, KEY_LENGTH, "ChaCha has no such key");
        Self {
            chacha: chacha(),
            poly1305: poly1305(),
        }
    }

    fn seal(&self, key: &[u8], nonce: &[u8; NONCE_LENGTH], text: &[u8], out: &mut [u8]) {
        out[..text.len()].copy_from_slice(text);
        self.seal_in_place(key, nonce, out);
    }

    fn seal_in_place(&self, key: &[u8], nonce: &[u8; NONCE_LENGTH], body: &mut [u8]) {
        let (text, tag) = body.split_last_chunk_mut().expect("body has a tag");
        *tag = self.run(Direction::Encrypt, key, nonce, text);
    }

    fn open(&self, key: &[u8], nonce: &[u8; NONCE_LENGTH], sealed: &[u8], out: &mut [u8]) -> bool {
        let (ciphertext, tag) = sealed
            .split_last_chunk::<TAG_LENGTH>()
            .expect("sealed has a tag");
        out.copy_from_slice(ciphertext);
        let due = self.run(Direction::Decrypt, key, nonce, out);
        let difference = tag.iter().zip(due).fold(0, |sum, (a, b)| sum | (a ^ b));
        difference == 0
    }
}

/// BearSSL has Poly1305 within the AEAD alone. Additional data without a text leave nothing
/// else to do, where the one-time key is given in ChaCha20's place.
pub struct Poly1305(AeadFunction);

/// Copies the key, which is the one-time key; of the text there is nothing to encrypt.
///
/// # Safety
///
/// `key` must be readable and `data` writable for `length` bytes.
unsafe extern "C" fn given_key(
    key: *const c_void,
    _nonce: *const c_void,
    _counter: u32,
    data: *mut c_void,
    length: usize,
) -> u32 {
    // SAFETY: the caller vouches for both.
    unsafe { ptr::copy_nonoverlapping::<u8>(key.cast(), data.cast(), length) };
    0
}

impl Mac for Poly1305 {
    fn new() -> Self {
        Self(poly1305())
    }

    fn authenticate(&self, key: &OneTimeKey, text: &[u8], tag: &mut [u8; TAG_LENGTH]) {
        let additional = &text[..text.len() - 16];
        // SAFETY: the function reads the one-time key by `given_key`, which copies its 32
        // bytes, and no nonce; the rest has the lengths that are given.
        unsafe {
            (self.0)(
                key.bytes.as_ptr().cast(),
                ptr::null(),
                ptr::null_mut(),
                0,
                additional.as_ptr().cast(),
                additional.len(),
                tag.as_mut_ptr().cast(),
                given_key,
                Direction::Encrypt as c_int,
            );
        }
    }
}
