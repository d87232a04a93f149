//! What the contestants ask of a library of ciphers, whichever it is.
//!
//! The key is given as bytes and expanded at each call, as ours does it.

use crate::rows::Library;

pub const TAG_LENGTH: usize = 16;

pub trait Ciphers: 'static {
    const LIBRARY: Library;
    type Block: Block;
    type Counter: Counter;
    type Gcm: Aead;
    type Hkdf: Hkdf;

    /// Whether the processor has the instructions that they need.
    fn are_there() -> bool {
        true
    }
}

/// AES on single blocks with one key length.
pub trait Block {
    /// # Panics
    ///
    /// If the key length is not 16 or 32.
    fn new(key_length: usize) -> Self;

    /// Encrypts the block in place.
    ///
    /// # Panics
    ///
    /// If the key has another length than the context.
    fn encrypt(&self, key: &[u8], block: &mut [u8; 16]);

    /// Decrypts the block in place.
    ///
    /// # Panics
    ///
    /// If the key has another length than the context.
    fn decrypt(&self, key: &[u8], block: &mut [u8; 16]);
}

/// AES in counter mode with one key length.
pub trait Counter {
    /// # Panics
    ///
    /// If the key length is not 16, 24 or 32.
    fn new(key_length: usize) -> Self;

    /// Encrypts `data` in place, counting from `iv` on. Whether the last four bytes
    /// carry into the others when they wrap is the library's choice.
    ///
    /// # Panics
    ///
    /// If the key has another length than the context.
    fn message(&self, key: &[u8], iv: [u8; 16], data: &mut [u8]);

    /// Encrypts `data` in place from `counter` on, a 32-bit counter that wraps.
    ///
    /// # Panics
    ///
    /// If the key has another length than the context.
    fn apply(&self, key: &[u8], nonce: &[u8; 12], counter: u32, data: &mut [u8]) {
        // A library could carry into the nonce, so what lies beyond the wrap is a
        // second message whose counter starts at 0.
        let before_wrap = ((1 << 32) - u64::from(counter)) * 16;
        let before_wrap = usize::try_from(before_wrap).map_or(data.len(), |n| n.min(data.len()));
        let (head, tail) = data.split_at_mut(before_wrap);
        self.message(key, first_block(nonce, counter), head);
        if !tail.is_empty() {
            self.message(key, first_block(nonce, 0), tail);
        }
    }
}

fn first_block(nonce: &[u8; 12], counter: u32) -> [u8; 16] {
    let mut iv = [0; 16];
    iv[..12].copy_from_slice(nonce);
    iv[12..].copy_from_slice(&counter.to_be_bytes());
    iv
}

/// Authenticated encryption with one key length and nonces of 12 bytes: AES-GCM, or
/// ChaCha20 with Poly1305.
pub trait Aead {
    /// # Panics
    ///
    /// If the cipher has no such key length.
    fn new(key_length: usize) -> Self;

    /// Seals `text` to `out`: ciphertext and tag.
    ///
    /// # Panics
    ///
    /// If the key has another length than the context, or `out` not that of text and
    /// tag.
    fn seal(&self, key: &[u8], nonce: &[u8; 12], text: &[u8], out: &mut [u8]);

    /// Seals the text at the front of `body` where it stands; the last 16 bytes are
    /// room for the tag.
    ///
    /// # Panics
    ///
    /// If the key has another length than the context, or `body` has no room for a
    /// tag.
    fn seal_in_place(&self, key: &[u8], nonce: &[u8; 12], body: &mut [u8]);

    /// Opens `sealed` to `out`, and answers whether the tag is right; `out` may be
    /// written in any case.
    ///
    /// # Panics
    ///
    /// If the key has another length than the context, or `sealed` not that of `out`
    /// and tag.
    fn open(&self, key: &[u8], nonce: &[u8; 12], sealed: &[u8], out: &mut [u8]) -> bool;
}

/// For a library that has no function for GHASH alone.
pub trait Gmac: Aead {
    /// Writes the tag of additional data without a text, which is known as GMAC.
    ///
    /// # Panics
    ///
    /// If the key has another length than the context.
    fn authenticate(&self, key: &[u8], nonce: &[u8; 12], data: &[u8], tag: &mut [u8; TAG_LENGTH]);
}

/// HKDF (RFC 5869) with SHA-1.
pub trait Hkdf {
    /// For keys that are derived with this info.
    fn new(info: &'static [u8]) -> Self;

    /// Fills `out` with the key that is derived of a key and a salt.
    fn derive(&self, key: &[u8], salt: &[u8], out: &mut [u8]);
}

#[cfg(test)]
mod tests {
    use super::{Aead, Block, Ciphers, Counter, Hkdf};
    use crate::bearssl::{BearSslWith, BearSslWithout};
    use crate::gcrypt::Gcrypt;
    use crate::mbedtls::MbedTls;
    use crate::nettle::Nettle;
    use crate::openssl::OpenSsl;

    /// The examples of FIPS 197, appendix C: the key counts up from 0, the text is
    /// 00 11 22 and so on.
    fn examples_of_fips_197<C: Ciphers>() {
        let key: [u8; 32] = std::array::from_fn(|i| i as u8);
        let text: [u8; 16] = std::array::from_fn(|i| 0x11 * i as u8);
        for (length, expected) in [
            (16, 0x69c4_e0d8_6a7b_0430_d8cd_b780_70b4_c55a_u128),
            (32, 0x8ea2_b7ca_5167_45bf_eafc_4990_4b49_6089),
        ] {
            let cipher = C::Block::new(length);
            let mut block = text;
            cipher.encrypt(&key[..length], &mut block);
            assert_eq!(block, expected.to_be_bytes());
            cipher.decrypt(&key[..length], &mut block);
            assert_eq!(block, text);
        }
    }

    /// Test case 2 of GCM's specification: key, nonce and text are zero.
    fn an_example_of_gcm<C: Ciphers>() {
        let (ciphertext, tag) = (
            0x0388_dace_60b6_a392_f328_c2b9_71b2_fe78_u128,
            0xab6e_47d4_2cec_13bd_f53a_67b2_1257_bddf_u128,
        );
        let expected = [ciphertext.to_be_bytes(), tag.to_be_bytes()].concat();
        let (key, nonce) = ([0; 16], [0; 12]);
        let gcm = C::Gcm::new(16);
        let (mut sealed, mut in_place) = ([1; 32], [0; 32]);
        gcm.seal(&key, &nonce, &[0; 16], &mut sealed);
        assert_eq!(sealed[..], expected);
        gcm.seal_in_place(&key, &nonce, &mut in_place);
        assert_eq!(in_place[..], expected);
        let mut text = [1; 16];
        assert!(gcm.open(&key, &nonce, &sealed, &mut text));
        assert_eq!(text, [0; 16]);
        sealed[31] ^= 1;
        assert!(!gcm.open(&key, &nonce, &sealed, &mut text));
    }

    /// Behind the wrap of the counter comes what its start gives.
    fn a_counter_wraps<C: Ciphers>() {
        for length in [16, 24, 32] {
            let (key, nonce) = (&[7; 32][..length], &[9; 12]);
            let counter = C::Counter::new(length);
            let (mut wrapped, mut last, mut start) = ([0; 48], [0; 16], [0; 32]);
            counter.apply(key, nonce, u32::MAX, &mut wrapped);
            counter.apply(key, nonce, u32::MAX, &mut last);
            counter.apply(key, nonce, 0, &mut start);
            assert_eq!(wrapped[..16], last);
            assert_eq!(wrapped[16..], start);
            assert_ne!(last, start[..16]);
        }
    }

    /// RFC 5869, appendix A.4.
    fn an_example_of_hkdf<C: Ciphers>() {
        let hkdf = C::Hkdf::new(b"\xf0\xf1\xf2\xf3\xf4\xf5\xf6\xf7\xf8\xf9");
        let salt: [u8; 13] = std::array::from_fn(|i| i as u8);
        let mut out = [0; 42];
        // A context serves more than one key.
        for key in [&[0; 16][..], &[0x0b; 11]] {
            hkdf.derive(key, &salt, &mut out);
        }
        let hex: String = out.iter().map(|byte| format!("{byte:02x}")).collect();
        assert_eq!(
            hex,
            "085a01ea1b10f36933068b56efa5ad81a4f14b822f5b091568a9cdd4f155fda2c22e422478d305f3f896"
        );
    }

    fn is_bound_as_it_is<C: Ciphers>() {
        examples_of_fips_197::<C>();
        an_example_of_gcm::<C>();
        a_counter_wraps::<C>();
        an_example_of_hkdf::<C>();
    }

    #[test]
    fn openssl_is_bound_as_it_is() {
        is_bound_as_it_is::<OpenSsl>();
    }

    #[test]
    fn nettle_is_bound_as_it_is() {
        is_bound_as_it_is::<Nettle>();
    }

    #[test]
    fn gcrypt_is_bound_as_it_is() {
        is_bound_as_it_is::<Gcrypt>();
    }

    #[test]
    fn mbedtls_is_bound_as_it_is() {
        is_bound_as_it_is::<MbedTls>();
    }

    #[test]
    fn bearssl_is_bound_as_it_is() {
        is_bound_as_it_is::<BearSslWithout>();
        if BearSslWith::are_there() {
            is_bound_as_it_is::<BearSslWith>();
        }
    }
}
