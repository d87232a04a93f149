//! AES on one block, in counter mode and in GCM.

use std::os::raw::{c_int, c_uint, c_void};
use std::ptr;

use super::{check, initialise};
use crate::ciphers::{Aead, Block, Counter, Gmac, TAG_LENGTH};

const MODE_ECB: c_int = 1;
const MODE_CTR: c_int = 6;
const MODE_GCM: c_int = 9;

extern "C" {
    fn gcry_cipher_open(h: *mut *mut c_void, algo: c_int, mode: c_int, flags: c_uint) -> c_uint;
    fn gcry_cipher_close(h: *mut c_void);
    fn gcry_cipher_setkey(h: *mut c_void, key: *const u8, length: usize) -> c_uint;
    fn gcry_cipher_setiv(h: *mut c_void, iv: *const u8, length: usize) -> c_uint;
    fn gcry_cipher_setctr(h: *mut c_void, counter: *const u8, length: usize) -> c_uint;
    fn gcry_cipher_authenticate(h: *mut c_void, data: *const u8, length: usize) -> c_uint;
    fn gcry_cipher_gettag(h: *mut c_void, tag: *mut u8, length: usize) -> c_uint;
    fn gcry_cipher_checktag(h: *mut c_void, tag: *const u8, length: usize) -> c_uint;
    fn gcry_cipher_encrypt(
        h: *mut c_void,
        out: *mut u8,
        room: usize,
        text: *const u8,
        length: usize,
    ) -> c_uint;
    fn gcry_cipher_decrypt(
        h: *mut c_void,
        out: *mut u8,
        room: usize,
        text: *const u8,
        length: usize,
    ) -> c_uint;
}

/// A cipher with one key length, in a mode.
struct Handle {
    handle: *mut c_void,
    key_length: usize,
}

impl Handle {
    fn open(key_length: usize, mode: c_int) -> Self {
        initialise();
        let algorithm = match key_length {
            16 => 7,
            24 => 8,
            32 => 9,
            _ => panic!("AES has no key of {key_length} bytes"),
        };
        let mut handle = ptr::null_mut();
        // SAFETY: the handle is written where nothing fails.
        check(unsafe { gcry_cipher_open(&mut handle, algorithm, mode, 0) });
        Self { handle, key_length }
    }

    fn set_key(&self, key: &[u8]) {
        assert_eq!(key.len(), self.key_length, "the context is for another key");
        // SAFETY: the handle is open, and the key has that length.
        check(unsafe { gcry_cipher_setkey(self.handle, key.as_ptr(), key.len()) });
    }

    /// Key and nonce of a message.
    fn start(&self, key: &[u8], nonce: &[u8; 12]) {
        self.set_key(key);
        // SAFETY: the handle is open, and the nonce has that length.
        check(unsafe { gcry_cipher_setiv(self.handle, nonce.as_ptr(), nonce.len()) });
    }

    fn encrypt_in_place(&self, data: &mut [u8]) {
        let (place, length) = (data.as_mut_ptr(), data.len());
        // SAFETY: without a text the data is replaced.
        check(unsafe { gcry_cipher_encrypt(self.handle, place, length, ptr::null(), 0) });
    }

    fn tag(&self) -> [u8; TAG_LENGTH] {
        let mut tag = [0; TAG_LENGTH];
        // SAFETY: the tag has that length.
        check(unsafe { gcry_cipher_gettag(self.handle, tag.as_mut_ptr(), tag.len()) });
        tag
    }
}

impl Drop for Handle {
    fn drop(&mut self) {
        // SAFETY: the handle is open, and not used again.
        unsafe { gcry_cipher_close(self.handle) }
    }
}

pub struct AesBlock(Handle);

impl Block for AesBlock {
    fn new(key_length: usize) -> Self {
        Self(Handle::open(key_length, MODE_ECB))
    }

    fn encrypt(&self, key: &[u8], block: &mut [u8; 16]) {
        self.0.set_key(key);
        self.0.encrypt_in_place(block);
    }

    fn decrypt(&self, key: &[u8], block: &mut [u8; 16]) {
        self.0.set_key(key);
        let (place, length) = (block.as_mut_ptr(), block.len());
        // SAFETY: without a text the block is replaced.
        check(unsafe { gcry_cipher_decrypt(self.0.handle, place, length, ptr::null(), 0) });
    }
}

pub struct AesCtr(Handle);

impl Counter for AesCtr {
    fn new(key_length: usize) -> Self {
        Self(Handle::open(key_length, MODE_CTR))
    }

    fn message(&self, key: &[u8], iv: [u8; 16], data: &mut [u8]) {
        self.0.set_key(key);
        // SAFETY: the counter has that length.
        check(unsafe { gcry_cipher_setctr(self.0.handle, iv.as_ptr(), iv.len()) });
        self.0.encrypt_in_place(data);
    }
}

pub struct AesGcm(Handle);

impl Aead for AesGcm {
    fn new(key_length: usize) -> Self {
        Self(Handle::open(key_length, MODE_GCM))
    }

    fn seal(&self, key: &[u8], nonce: &[u8; 12], text: &[u8], out: &mut [u8]) {
        let (ciphertext, tag) = out.split_last_chunk_mut().expect("out has a tag");
        assert_eq!(text.len(), ciphertext.len(), "a cipher keeps the length");
        self.0.start(key, nonce);
        let (to, room) = (ciphertext.as_mut_ptr(), ciphertext.len());
        // SAFETY: both have that length, and `out` is borrowed mutably.
        check(unsafe { gcry_cipher_encrypt(self.0.handle, to, room, text.as_ptr(), text.len()) });
        *tag = self.0.tag();
    }

    fn seal_in_place(&self, key: &[u8], nonce: &[u8; 12], body: &mut [u8]) {
        let (text, tag) = body.split_last_chunk_mut().expect("body has a tag");
        self.0.start(key, nonce);
        self.0.encrypt_in_place(text);
        *tag = self.0.tag();
    }

    fn open(&self, key: &[u8], nonce: &[u8; 12], sealed: &[u8], out: &mut [u8]) -> bool {
        let (ciphertext, tag) = sealed.split_last_chunk().expect("sealed has a tag");
        let tag: &[u8; TAG_LENGTH] = tag;
        assert_eq!(ciphertext.len(), out.len(), "a cipher keeps the length");
        self.0.start(key, nonce);
        let (to, room) = (out.as_mut_ptr(), out.len());
        let (from, length) = (ciphertext.as_ptr(), ciphertext.len());
        // SAFETY: both have that length, and `out` is borrowed mutably.
        check(unsafe { gcry_cipher_decrypt(self.0.handle, to, room, from, length) });
        // SAFETY: the tag has that length, and is only read.
        unsafe { gcry_cipher_checktag(self.0.handle, tag.as_ptr(), tag.len()) == 0 }
    }
}

impl Gmac for AesGcm {
    fn authenticate(&self, key: &[u8], nonce: &[u8; 12], data: &[u8], tag: &mut [u8; TAG_LENGTH]) {
        self.0.start(key, nonce);
        // SAFETY: `data` is only read.
        check(unsafe { gcry_cipher_authenticate(self.0.handle, data.as_ptr(), data.len()) });
        *tag = self.0.tag();
    }
}
