//! AES-GCM, and ChaCha20 with Poly1305.

use std::marker::PhantomData;
use std::os::raw::{c_char, c_int, c_uint, c_void};

use super::{check_version, SetKey};
use crate::chachas::{Extended, KEY_LENGTH};
use crate::ciphers::{Aead, Gmac, TAG_LENGTH};
use crate::room::Room;

type Update = unsafe extern "C" fn(ctx: *mut c_void, length: usize, data: *const u8);
type Apply = unsafe extern "C" fn(ctx: *mut c_void, length: usize, dst: *mut u8, src: *const u8);
type Digest = unsafe extern "C" fn(ctx: *mut c_void, length: usize, digest: *mut u8);

/// nettle's `struct nettle_aead`.
#[repr(C)]
#[allow(dead_code, reason = "the layout is nettle's")]
pub struct Description {
    name: *const c_char,
    context_size: c_uint,
    block_size: c_uint,
    key_size: c_uint,
    nonce_size: c_uint,
    digest_size: c_uint,
    set_encrypt_key: SetKey,
    set_decrypt_key: SetKey,
    set_nonce: SetKey,
    update: Update,
    encrypt: Apply,
    decrypt: Apply,
    digest: Digest,
}

extern "C" {
    static nettle_gcm_aes128: Description;
    static nettle_gcm_aes192: Description;
    static nettle_gcm_aes256: Description;
    static nettle_chacha_poly1305: Description;

    fn nettle_memeql_sec(a: *const c_void, b: *const c_void, n: usize) -> c_int;
}

/// Which of nettle's AEADs it is.
pub trait Choice {
    /// One with that key length and nonces of 12 bytes.
    ///
    /// # Panics
    ///
    /// If there is none with that key length.
    fn description(key_length: usize) -> &'static Description;
}

pub struct Gcm;
pub struct ChaCha20Poly1305;

impl Choice for Gcm {
    fn description(key_length: usize) -> &'static Description {
        // SAFETY: constants of the library.
        unsafe {
            match key_length {
                16 => &nettle_gcm_aes128,
                24 => &nettle_gcm_aes192,
                32 => &nettle_gcm_aes256,
                _ => panic!("AES has no key of {key_length} bytes"),
            }
        }
    }
}

impl Choice for ChaCha20Poly1305 {
    fn description(key_length: usize) -> &'static Description {
        assert_eq!(key_length, KEY_LENGTH, "ChaCha has no such key");
        // SAFETY: a constant of the library.
        unsafe { &nettle_chacha_poly1305 }
    }
}

pub struct NettleAead<C> {
    aead: &'static Description,
    room: Room,
    choice: PhantomData<C>,
}

pub type AesGcm = NettleAead<Gcm>;
pub type ChaChaPoly = NettleAead<ChaCha20Poly1305>;

impl Extended for ChaChaPoly {}

impl<C: Choice> Aead for NettleAead<C> {
    fn new(key_length: usize) -> Self {
        check_version();
        let aead = C::description(key_length);
        let sizes = [aead.key_size, aead.nonce_size, aead.digest_size].map(|size| size as usize);
        let expected = [key_length, 12, TAG_LENGTH];
        assert_eq!(sizes, expected, "nettle describes another cipher");
        let room = Room::new(aead.context_size as usize);
        let choice = PhantomData;
        Self { aead, room, choice }
    }

    fn seal(&self, key: &[u8], nonce: &[u8; 12], text: &[u8], out: &mut [u8]) {
        let (ciphertext, tag) = out.split_last_chunk_mut().expect("out has a tag");
        assert_eq!(text.len(), ciphertext.len(), "a cipher keeps the length");
        let (from, to) = (text.as_ptr(), ciphertext.as_mut_ptr());
        // SAFETY: both have that length, and `out` is borrowed mutably.
        *tag = self.message(key, nonce, |context| unsafe {
            (self.aead.encrypt)(context, text.len(), to, from);
        });
    }

    fn seal_in_place(&self, key: &[u8], nonce: &[u8; 12], body: &mut [u8]) {
        let (text, tag) = body.split_last_chunk_mut().expect("body has a tag");
        let place = text.as_mut_ptr();
        // SAFETY: input and output are the same slice.
        *tag = self.message(key, nonce, |context| unsafe {
            (self.aead.encrypt)(context, text.len(), place, place);
        });
    }

    fn open(&self, key: &[u8], nonce: &[u8; 12], sealed: &[u8], out: &mut [u8]) -> bool {
        let (ciphertext, tag) = sealed.split_last_chunk().expect("sealed has a tag");
        let tag: &[u8; TAG_LENGTH] = tag;
        assert_eq!(ciphertext.len(), out.len(), "a cipher keeps the length");
        let (from, to) = (ciphertext.as_ptr(), out.as_mut_ptr());
        // SAFETY: both have that length, and `out` is borrowed mutably.
        let due = self.message(key, nonce, |context| unsafe {
            (self.aead.decrypt)(context, ciphertext.len(), to, from);
        });
        // SAFETY: both tags have that length, and are only read.
        unsafe { nettle_memeql_sec(tag.as_ptr().cast(), due.as_ptr().cast(), TAG_LENGTH) == 1 }
    }
}

impl Gmac for AesGcm {
    fn authenticate(&self, key: &[u8], nonce: &[u8; 12], data: &[u8], tag: &mut [u8; TAG_LENGTH]) {
        // SAFETY: `data` is only read.
        *tag = self.message(key, nonce, |context| unsafe {
            (self.aead.update)(context, data.len(), data.as_ptr());
        });
    }
}

impl<C> NettleAead<C> {
    /// A message whose data the work gives to nettle, in one call. Answers its tag.
    fn message(
        &self,
        key: &[u8],
        nonce: &[u8; 12],
        work: impl FnOnce(*mut c_void),
    ) -> [u8; TAG_LENGTH] {
        let key_length = self.aead.key_size as usize;
        assert_eq!(key.len(), key_length, "the context is for another key");
        let mut tag = [0; TAG_LENGTH];
        self.room.with(|context| {
            // SAFETY: the room was made for this cipher; key and nonce have its
            // lengths. One function sets the key for both directions.
            unsafe {
                (self.aead.set_encrypt_key)(context, key.as_ptr());
                (self.aead.set_nonce)(context, nonce.as_ptr());
            }
            work(context);
            // SAFETY: the context has key and nonce, and the tag that length.
            unsafe { (self.aead.digest)(context, tag.len(), tag.as_mut_ptr()) }
        });
        tag
    }
}
