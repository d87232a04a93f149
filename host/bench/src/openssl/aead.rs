//! AES-GCM, and ChaCha20 with Poly1305.

use std::marker::PhantomData;
use std::os::raw::{c_int, c_void};
use std::ptr;

use super::{Context, Direction, EvpCipher, EvpCipherCtx};
use crate::chachas::{Extended, KEY_LENGTH};
use crate::ciphers::{Aead, Gmac, TAG_LENGTH};

extern "C" {
    fn EVP_aes_128_gcm() -> *const EvpCipher;
    fn EVP_aes_192_gcm() -> *const EvpCipher;
    fn EVP_aes_256_gcm() -> *const EvpCipher;
    fn EVP_chacha20_poly1305() -> *const EvpCipher;
    fn EVP_CipherFinal_ex(ctx: *mut EvpCipherCtx, out: *mut u8, out_len: *mut c_int) -> c_int;
    fn EVP_CIPHER_CTX_ctrl(
        ctx: *mut EvpCipherCtx,
        command: c_int,
        number: c_int,
        place: *mut c_void,
    ) -> c_int;
}

// Commands of EVP_CIPHER_CTX_ctrl.
const EVP_CTRL_AEAD_GET_TAG: c_int = 0x10;
const EVP_CTRL_AEAD_SET_TAG: c_int = 0x11;

/// Which of OpenSSL's AEADs it is.
pub trait Choice {
    /// One with that key length, and IVs of 12 bytes unless others are asked for.
    ///
    /// # Panics
    ///
    /// If there is none with that key length.
    fn cipher(key_length: usize) -> *const EvpCipher;
}

pub struct Gcm;
pub struct ChaCha20Poly1305;

impl Choice for Gcm {
    fn cipher(key_length: usize) -> *const EvpCipher {
        // SAFETY: the functions answer static descriptions.
        unsafe {
            match key_length {
                16 => EVP_aes_128_gcm(),
                24 => EVP_aes_192_gcm(),
                32 => EVP_aes_256_gcm(),
                _ => panic!("AES has no key of {key_length} bytes"),
            }
        }
    }
}

impl Choice for ChaCha20Poly1305 {
    fn cipher(key_length: usize) -> *const EvpCipher {
        assert_eq!(key_length, KEY_LENGTH, "ChaCha has no such key");
        // SAFETY: the function answers a static description.
        unsafe { EVP_chacha20_poly1305() }
    }
}

pub struct EvpAead<C>(Context<12>, PhantomData<C>);

pub type AesGcm = EvpAead<Gcm>;
pub type ChaChaPoly = EvpAead<ChaCha20Poly1305>;

impl Extended for ChaChaPoly {}

impl<C: Choice> Aead for EvpAead<C> {
    fn new(key_length: usize) -> Self {
        // SAFETY: the cipher has that key length and those IVs.
        let context = unsafe { Context::new(C::cipher(key_length), key_length) };
        Self(context, PhantomData)
    }

    fn seal(&self, key: &[u8], nonce: &[u8; 12], text: &[u8], out: &mut [u8]) {
        let (ciphertext, tag) = out.split_last_chunk_mut().expect("out has a tag");
        self.message(Direction::Encrypt, key, nonce, text, ciphertext);
        assert!(self.finish(), "EVP_CipherFinal_ex failed");
        self.tag(EVP_CTRL_AEAD_GET_TAG, tag);
    }

    fn seal_in_place(&self, key: &[u8], nonce: &[u8; 12], body: &mut [u8]) {
        let (text, tag) = body.split_last_chunk_mut().expect("body has a tag");
        self.0.start(Direction::Encrypt, key, nonce);
        let place = text.as_mut_ptr();
        // SAFETY: input and output are the same slice.
        unsafe { self.0.update(place, place, text.len()) }
        assert!(self.finish(), "EVP_CipherFinal_ex failed");
        self.tag(EVP_CTRL_AEAD_GET_TAG, tag);
    }

    fn open(&self, key: &[u8], nonce: &[u8; 12], sealed: &[u8], out: &mut [u8]) -> bool {
        let (ciphertext, tag) = sealed.split_last_chunk().expect("sealed has a tag");
        self.message(Direction::Decrypt, key, nonce, ciphertext, out);
        // The command takes a mutable place, and only reads it.
        let mut received = *tag;
        self.tag(EVP_CTRL_AEAD_SET_TAG, &mut received);
        self.finish()
    }
}

impl Gmac for AesGcm {
    fn authenticate(&self, key: &[u8], nonce: &[u8; 12], data: &[u8], tag: &mut [u8; TAG_LENGTH]) {
        self.0.start(Direction::Encrypt, key, nonce);
        // SAFETY: without output, `data` is only read.
        unsafe { self.0.update(data.as_ptr(), ptr::null_mut(), data.len()) }
        assert!(self.finish(), "EVP_CipherFinal_ex failed");
        self.tag(EVP_CTRL_AEAD_GET_TAG, tag);
    }
}

impl<C> EvpAead<C> {
    /// A message up to its end, which needs the tag first where it is opened.
    fn message(
        &self,
        direction: Direction,
        key: &[u8],
        nonce: &[u8; 12],
        input: &[u8],
        output: &mut [u8],
    ) {
        assert_eq!(input.len(), output.len(), "a cipher keeps the length");
        self.0.start(direction, key, nonce);
        // SAFETY: both have that length, and `output` is borrowed mutably.
        unsafe {
            self.0
                .update(input.as_ptr(), output.as_mut_ptr(), input.len())
        }
    }

    /// Has the tag written or read, by the command.
    fn tag(&self, command: c_int, tag: &mut [u8; TAG_LENGTH]) {
        let place = tag.as_mut_ptr().cast();
        // SAFETY: both commands go to the number of bytes that is given.
        let done = unsafe { EVP_CIPHER_CTX_ctrl(self.0.ctx, command, TAG_LENGTH as c_int, place) };
        assert_eq!(done, 1, "EVP_CIPHER_CTX_ctrl failed");
    }

    /// Ends a message, and answers whether its tag is right.
    fn finish(&self) -> bool {
        let mut written = 0;
        // SAFETY: all of the text was written, so nothing is written here.
        unsafe { EVP_CipherFinal_ex(self.0.ctx, ptr::null_mut(), &mut written) == 1 }
    }
}
