//! What the contestants ask of a library that has ChaCha and Poly1305.

use crate::ciphers::{Aead, TAG_LENGTH};
use crate::plain::ChaCha;
use crate::rows::Library;

pub const KEY_LENGTH: usize = 32;
pub const NONCE_LENGTH: usize = 12;

/// Of the form with the long nonce.
pub const LONG_NONCE_LENGTH: usize = 24;

pub type Key = [u8; KEY_LENGTH];

pub trait ChaChas: 'static {
    const LIBRARY: Library;
    type Stream: Stream;
    type Aead: Extended;
    type Mac: Mac;
}

/// The key stream of ChaCha.
pub trait Stream {
    fn new() -> Self;

    /// Adds the key stream from a block on to `data`. The counter does not wrap.
    fn message(&self, key: &Key, nonce: &[u8; NONCE_LENGTH], counter: u32, data: &mut [u8]);

    /// Adds the key stream from a block on to `data`, with a 32-bit counter that wraps. At
    /// the wrap OpenSSL carries into the nonce, and libsodium gives up: so what lies beyond
    /// is a second message.
    fn apply(&self, key: &Key, nonce: &[u8; NONCE_LENGTH], counter: u32, data: &mut [u8]) {
        let before_wrap = ((1 << 32) - u64::from(counter)) * 64;
        let before_wrap = usize::try_from(before_wrap).map_or(data.len(), |n| n.min(data.len()));
        let (head, tail) = data.split_at_mut(before_wrap);
        self.message(key, nonce, counter, head);
        if !tail.is_empty() {
            self.message(key, nonce, 0, tail);
        }
    }
}

/// The AEAD with nonces of 24 bytes too. Where a library has not that form, its ChaCha20 is
/// given the subkey of plain Rust.
pub trait Extended: Aead {
    /// As [`Aead::seal_in_place`].
    fn seal_extended_in_place(&self, key: &Key, nonce: &[u8; LONG_NONCE_LENGTH], body: &mut [u8]) {
        let (subkey, inner) = ChaCha { rounds: 20 }.extend(key, nonce);
        self.seal_in_place(&subkey, &inner, body);
    }

    /// As [`Aead::open`].
    fn open_extended(
        &self,
        key: &Key,
        nonce: &[u8; LONG_NONCE_LENGTH],
        sealed: &[u8],
        out: &mut [u8],
    ) -> bool {
        let (subkey, inner) = ChaCha { rounds: 20 }.extend(key, nonce);
        self.open(&subkey, &inner, sealed, out)
    }
}

/// A one-time key of Poly1305, whose second half is a block under an AES key: nettle asks
/// for these.
pub struct OneTimeKey {
    pub bytes: Key,
    pub aes_key: [u8; 16],
    pub block: [u8; 16],
}

/// Poly1305.
pub trait Mac {
    fn new() -> Self;

    /// The tag of a text of whole blocks. The last one is a block of lengths as the AEAD
    /// has it, for additional data and no text: BearSSL makes it itself.
    fn authenticate(&self, key: &OneTimeKey, text: &[u8], tag: &mut [u8; TAG_LENGTH]);
}

/// The key as an array.
///
/// # Panics
///
/// If it has another length.
pub fn whole_key(key: &[u8]) -> &Key {
    key.try_into().expect("ChaCha has keys of 32 bytes")
}

#[cfg(test)]
mod tests {
    use super::{ChaChas, Extended, Mac, OneTimeKey, Stream, KEY_LENGTH};
    use crate::bearssl::BearSslWithout;
    use crate::ciphers::{Aead, Block};
    use crate::nettle::Nettle;
    use crate::openssl::{AesBlock, OpenSsl};
    use crate::plain::Plain;
    use crate::sodium::Sodium;

    fn count<const N: usize>() -> [u8; N] {
        std::array::from_fn(|i| i as u8)
    }

    /// RFC 8439, section 2.4.2: the first bytes.
    fn an_example_of_chacha<C: ChaChas>() {
        let mut text = *b"Ladies and Gentl";
        let nonce = [0, 0, 0, 0, 0, 0, 0, 0x4a, 0, 0, 0, 0];
        C::Stream::new().apply(&count(), &nonce, 1, &mut text);
        let expected = 0x6e2e_359a_2568_f980_41ba_0728_dd0d_6981_u128;
        assert_eq!(text, expected.to_be_bytes());
    }

    /// All forms of sealing are those of plain Rust, and what is sealed opens.
    fn the_aead_of_plain_rust<C: ChaChas>() {
        let (aead, plain) = (C::Aead::new(KEY_LENGTH), Plain::<20>);
        let (key, nonce, long) = (count(), count(), count());
        for length in [0, 1, 16, 63, 64, 65, 255, 257, 1_000] {
            let text = vec![7; length];
            let mut expected = vec![0; length + 16];
            plain.seal(&key, &nonce, &text, &mut expected);
            let mut sealed = vec![1; length + 16];
            aead.seal(&key, &nonce, &text, &mut sealed);
            assert_eq!(sealed, expected);
            sealed[..length].copy_from_slice(&text);
            aead.seal_in_place(&key, &nonce, &mut sealed);
            assert_eq!(sealed, expected);
            let mut out = vec![1; length];
            assert!(aead.open(&key, &nonce, &sealed, &mut out));
            assert_eq!(out, text);
            sealed[length] ^= 1;
            assert!(!aead.open(&key, &nonce, &sealed, &mut out));

            expected[..length].copy_from_slice(&text);
            sealed[..length].copy_from_slice(&text);
            plain.seal_extended_in_place(&key, &long, &mut expected);
            aead.seal_extended_in_place(&key, &long, &mut sealed);
            assert_eq!(sealed, expected);
            assert!(aead.open_extended(&key, &long, &sealed, &mut out));
            assert_eq!(out, text);
            sealed[length + 15] ^= 1;
            assert!(!aead.open_extended(&key, &long, &sealed, &mut out));
        }
    }

    /// Additional data of two blocks, and the block of its length.
    fn the_tag_of_plain_rust<C: ChaChas>() {
        let mut key = OneTimeKey {
            bytes: count(),
            aes_key: count(),
            block: [9; 16],
        };
        let mut half = key.block;
        AesBlock::new(16).encrypt(&key.aes_key, &mut half);
        key.bytes[16..].copy_from_slice(&half);
        let mut text = [5; 48];
        text[32..].copy_from_slice(&32_u128.to_le_bytes());
        let (mut tag, mut expected) = ([0; 16], [0; 16]);
        C::Mac::new().authenticate(&key, &text, &mut tag);
        Plain::<20>.authenticate(&key, &text, &mut expected);
        assert_eq!(tag, expected);
    }

    fn is_bound_as_it_is<C: ChaChas>() {
        an_example_of_chacha::<C>();
        the_aead_of_plain_rust::<C>();
        the_tag_of_plain_rust::<C>();
    }

    #[test]
    fn libraries_are_bound_as_they_are() {
        is_bound_as_it_is::<OpenSsl>();
        is_bound_as_it_is::<Nettle>();
        is_bound_as_it_is::<BearSslWithout>();
        is_bound_as_it_is::<Sodium>();
        is_bound_as_it_is::<Plain<20>>();
    }
}
