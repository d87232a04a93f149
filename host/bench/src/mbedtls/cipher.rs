//! AES on one block, in counter mode and in GCM.

use std::os::raw::{c_int, c_uint, c_void};
use std::ptr;

use super::{check, check_version};
use crate::ciphers::{Aead, Block, Counter, Gmac, TAG_LENGTH};
use crate::room::Room;

/// More than mbedTLS's contexts of AES (288 bytes) and of GCM (some 500). Only pointers
/// are passed, so more room is as good.
const ROOM: usize = 4_096;

const DECRYPT: c_int = 0;
const ENCRYPT: c_int = 1;
const CIPHER_ID_AES: c_int = 2;

extern "C" {
    fn mbedtls_aes_init(ctx: *mut c_void);
    fn mbedtls_aes_setkey_enc(ctx: *mut c_void, key: *const u8, bits: c_uint) -> c_int;
    fn mbedtls_aes_setkey_dec(ctx: *mut c_void, key: *const u8, bits: c_uint) -> c_int;
    fn mbedtls_aes_crypt_ecb(ctx: *mut c_void, mode: c_int, from: *const u8, to: *mut u8) -> c_int;
    fn mbedtls_aes_crypt_ctr(
        ctx: *mut c_void,
        length: usize,
        offset: *mut usize,
        counter: *mut u8,
        stream: *mut u8,
        from: *const u8,
        to: *mut u8,
    ) -> c_int;

    fn mbedtls_gcm_init(ctx: *mut c_void);
    fn mbedtls_gcm_free(ctx: *mut c_void);
    fn mbedtls_gcm_setkey(ctx: *mut c_void, id: c_int, key: *const u8, bits: c_uint) -> c_int;
    fn mbedtls_gcm_crypt_and_tag(
        ctx: *mut c_void,
        mode: c_int,
        length: usize,
        iv: *const u8,
        iv_length: usize,
        data: *const u8,
        data_length: usize,
        from: *const u8,
        to: *mut u8,
        tag_length: usize,
        tag: *mut u8,
    ) -> c_int;
    fn mbedtls_gcm_auth_decrypt(
        ctx: *mut c_void,
        length: usize,
        iv: *const u8,
        iv_length: usize,
        data: *const u8,
        data_length: usize,
        tag: *const u8,
        tag_length: usize,
        from: *const u8,
        to: *mut u8,
    ) -> c_int;
}

/// # Panics
///
/// If AES has no such key length.
fn check_length(key_length: usize) {
    check_version();
    assert!(
        matches!(key_length, 16 | 24 | 32),
        "AES has no key of {key_length} bytes"
    );
}

fn bits(key: &[u8]) -> c_uint {
    8 * key.len() as c_uint
}

/// A context of AES, which owns nothing and needs no end.
struct Context {
    room: Room,
    key_length: usize,
}

impl Context {
    fn new(key_length: usize) -> Self {
        check_length(key_length);
        let room = Room::new(ROOM);
        // SAFETY: the room is larger than the context.
        room.with(|context| unsafe { mbedtls_aes_init(context) });
        Self { room, key_length }
    }

    fn with(&self, key: &[u8], work: impl FnOnce(*mut c_void)) {
        assert_eq!(key.len(), self.key_length, "the context is for another key");
        self.room.with(work);
    }
}

pub struct AesBlock(Context);

impl Block for AesBlock {
    fn new(key_length: usize) -> Self {
        Self(Context::new(key_length))
    }

    fn encrypt(&self, key: &[u8], block: &mut [u8; 16]) {
        let place = block.as_mut_ptr();
        // SAFETY: the key has that length, and input and output are the same block.
        self.0.with(key, |context| unsafe {
            check(mbedtls_aes_setkey_enc(context, key.as_ptr(), bits(key)));
            check(mbedtls_aes_crypt_ecb(context, ENCRYPT, place, place));
        });
    }

    fn decrypt(&self, key: &[u8], block: &mut [u8; 16]) {
        let place = block.as_mut_ptr();
        // SAFETY: the key has that length, and input and output are the same block.
        self.0.with(key, |context| unsafe {
            check(mbedtls_aes_setkey_dec(context, key.as_ptr(), bits(key)));
            check(mbedtls_aes_crypt_ecb(context, DECRYPT, place, place));
        });
    }
}

pub struct AesCtr(Context);

impl Counter for AesCtr {
    fn new(key_length: usize) -> Self {
        Self(Context::new(key_length))
    }

    fn message(&self, key: &[u8], mut iv: [u8; 16], data: &mut [u8]) {
        let (place, mut offset, mut stream) = (data.as_mut_ptr(), 0, [0; 16]);
        // SAFETY: the key has that length, counter and stream those of a block, and input and
        // output are the same slice.
        self.0.with(key, |context| unsafe {
            check(mbedtls_aes_setkey_enc(context, key.as_ptr(), bits(key)));
            check(mbedtls_aes_crypt_ctr(
                context,
                data.len(),
                &mut offset,
                iv.as_mut_ptr(),
                stream.as_mut_ptr(),
                place,
                place,
            ));
        });
    }
}

pub struct AesGcm {
    room: Room,
    key_length: usize,
}

impl AesGcm {
    /// A message of additional data and a text, in one call. Answers its tag.
    ///
    /// # Safety
    ///
    /// `from` and `to` have so many bytes.
    unsafe fn message(
        &self,
        key: &[u8],
        nonce: &[u8; 12],
        data: &[u8],
        (from, to, length): (*const u8, *mut u8, usize),
    ) -> [u8; TAG_LENGTH] {
        let mut tag = [0; TAG_LENGTH];
        self.with(key, |context| unsafe {
            check(mbedtls_gcm_crypt_and_tag(
                context,
                ENCRYPT,
                length,
                nonce.as_ptr(),
                nonce.len(),
                data.as_ptr(),
                data.len(),
                from,
                to,
                tag.len(),
                tag.as_mut_ptr(),
            ));
        });
        tag
    }

    fn with<T>(&self, key: &[u8], work: impl FnOnce(*mut c_void) -> T) -> T {
        assert_eq!(key.len(), self.key_length, "the context is for another key");
        self.room.with(|context| {
            // SAFETY: the room holds a context, and the key has that length.
            check(unsafe { mbedtls_gcm_setkey(context, CIPHER_ID_AES, key.as_ptr(), bits(key)) });
            work(context)
        })
    }
}

impl Aead for AesGcm {
    fn new(key_length: usize) -> Self {
        check_length(key_length);
        let room = Room::new(ROOM);
        // SAFETY: the room is larger than the context.
        room.with(|context| unsafe { mbedtls_gcm_init(context) });
        Self { room, key_length }
    }

    fn seal(&self, key: &[u8], nonce: &[u8; 12], text: &[u8], out: &mut [u8]) {
        let (ciphertext, tag) = out.split_last_chunk_mut().expect("out has a tag");
        assert_eq!(text.len(), ciphertext.len(), "a cipher keeps the length");
        let parts = (text.as_ptr(), ciphertext.as_mut_ptr(), text.len());
        // SAFETY: both have that length, and `out` is borrowed mutably.
        *tag = unsafe { self.message(key, nonce, &[], parts) };
    }

    fn seal_in_place(&self, key: &[u8], nonce: &[u8; 12], body: &mut [u8]) {
        let (text, tag) = body.split_last_chunk_mut().expect("body has a tag");
        let place = text.as_mut_ptr();
        // SAFETY: input and output are the same slice.
        *tag = unsafe { self.message(key, nonce, &[], (place, place, text.len())) };
    }

    fn open(&self, key: &[u8], nonce: &[u8; 12], sealed: &[u8], out: &mut [u8]) -> bool {
        let (ciphertext, tag) = sealed.split_last_chunk().expect("sealed has a tag");
        let tag: &[u8; TAG_LENGTH] = tag;
        assert_eq!(ciphertext.len(), out.len(), "a cipher keeps the length");
        // SAFETY: both texts have that length, nonce and tag theirs, and there is no
        // additional data.
        self.with(key, |context| unsafe {
            mbedtls_gcm_auth_decrypt(
                context,
                ciphertext.len(),
                nonce.as_ptr(),
                nonce.len(),
                ptr::null(),
                0,
                tag.as_ptr(),
                tag.len(),
                ciphertext.as_ptr(),
                out.as_mut_ptr(),
            ) == 0
        })
    }
}

impl Gmac for AesGcm {
    fn authenticate(&self, key: &[u8], nonce: &[u8; 12], data: &[u8], tag: &mut [u8; TAG_LENGTH]) {
        let (mut none, empty) = ([0; 16], [0; 16]);
        let parts = (empty.as_ptr(), none.as_mut_ptr(), 0);
        // SAFETY: no byte of the texts is read or written.
        *tag = unsafe { self.message(key, nonce, data, parts) };
    }
}

impl Drop for AesGcm {
    fn drop(&mut self) {
        // SAFETY: the room holds a context, which is not used again.
        self.room
            .with(|context| unsafe { mbedtls_gcm_free(context) });
    }
}
