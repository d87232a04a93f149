//! Datagrams of the 2017 edition as one would write them without the proved library,
//! with another library's HKDF and AES-GCM.
//!
//! As in `around`, a call is given the key as bytes and derives the subkey.

use crate::ciphers::{Aead, Ciphers, Hkdf, TAG_LENGTH};
use crate::plain::Refusal;

/// What UDP can carry over IPv4.
const LONGEST: usize = 65_507;

const INFO: &[u8] = b"ss-subkey";

const NONCE: [u8; 12] = [0; 12];

/// Datagrams of the method with one key length.
pub struct Datagrams<C: Ciphers> {
    gcm: C::Gcm,
    subkeys: C::Hkdf,
}

impl<C: Ciphers> Datagrams<C> {
    /// # Panics
    ///
    /// If no method has that key length.
    pub fn new(key_length: usize) -> Self {
        Self {
            gcm: C::Gcm::new(key_length),
            subkeys: C::Hkdf::new(INFO),
        }
    }

    /// Seals a datagram to the front of `out` and answers its length. The salt is as
    /// long as the key.
    pub fn seal(
        &self,
        key: &[u8],
        salt: &[u8],
        payload: &[u8],
        out: &mut [u8],
    ) -> Result<usize, Refusal> {
        let length = salt.len() + payload.len() + TAG_LENGTH;
        if length > LONGEST {
            return Err(Refusal::Length);
        }
        let (front, body) = out
            .get_mut(..length)
            .and_then(|datagram| datagram.split_at_mut_checked(salt.len()))
            .ok_or(Refusal::Room)?;
        front.copy_from_slice(salt);
        let mut room = [0; 32];
        let subkey = self.subkey(key, salt, &mut room);
        self.gcm.seal(subkey, &NONCE, payload, body);
        Ok(length)
    }

    /// Opens a datagram to the front of `out` and answers the length of its text. The
    /// libraries write the text before the tag is looked at, so `out` is written where
    /// the datagram is not authentic.
    pub fn open(&self, key: &[u8], datagram: &[u8], out: &mut [u8]) -> Result<usize, Refusal> {
        let (salt, body) = datagram
            .split_at_checked(key.len())
            .ok_or(Refusal::Length)?;
        let due = body.len().checked_sub(TAG_LENGTH).ok_or(Refusal::Length)?;
        if datagram.len() > LONGEST {
            return Err(Refusal::Length);
        }
        let text = out.get_mut(..due).ok_or(Refusal::Room)?;
        let mut room = [0; 32];
        let subkey = self.subkey(key, salt, &mut room);
        if self.gcm.open(subkey, &NONCE, body, text) {
            Ok(due)
        } else {
            Err(Refusal::NotAuthentic)
        }
    }

    /// The subkey of a salt, as long as the key.
    fn subkey<'a>(&self, key: &[u8], salt: &[u8], room: &'a mut [u8; 32]) -> &'a [u8] {
        let subkey = &mut room[..key.len()];
        self.subkeys.derive(key, salt, subkey);
        subkey
    }
}

#[cfg(test)]
mod tests {
    use super::Datagrams;
    use crate::bearssl::BearSslWithout;
    use crate::ciphers::Ciphers;
    use crate::nettle::Nettle;
    use crate::openssl::OpenSsl;
    use crate::plain::Refusal;

    const KEY: [u8; 32] = [7; 32];
    const SALT: [u8; 32] = [9; 32];

    fn what_is_sealed_opens<C: Ciphers>() {
        for length in [16, 24, 32] {
            let (key, salt) = (&KEY[..length], &SALT[..length]);
            let datagrams = Datagrams::<C>::new(length);
            let mut sealed = [0; 64];
            let sealed_length = datagrams.seal(key, salt, b"hello", &mut sealed);
            assert_eq!(sealed_length, Ok(length + 21));
            let sealed = &mut sealed[..length + 21];
            let mut out = [1; 8];
            assert_eq!(datagrams.open(key, sealed, &mut out), Ok(5));
            assert_eq!(&out, b"hello\x01\x01\x01");
            sealed[0] ^= 1;
            let refused = datagrams.open(key, sealed, &mut out);
            assert_eq!(refused, Err(Refusal::NotAuthentic));
        }
    }

    #[test]
    fn what_a_library_sealed_opens() {
        what_is_sealed_opens::<OpenSsl>();
        what_is_sealed_opens::<Nettle>();
        what_is_sealed_opens::<BearSslWithout>();
    }

    #[test]
    fn lengths_and_rooms_are_refused_as_ours_refuses_them() {
        let datagrams = Datagrams::<OpenSsl>::new(16);
        let (key, salt) = (&KEY[..16], &SALT[..16]);
        let longest = [0; 65_507 - 32];
        let seal = |payload: &[u8], room| datagrams.seal(key, salt, payload, &mut vec![0; room]);
        assert_eq!(seal(&longest, 65_507), Ok(65_507));
        assert_eq!(seal(&longest, 65_506), Err(Refusal::Room));
        assert_eq!(seal(&[0; 65_476], 70_000), Err(Refusal::Length));
        for length in [0, 31, 65_508] {
            let opened = datagrams.open(key, &vec![0; length], &mut []);
            assert_eq!(opened, Err(Refusal::Length));
        }
        let opened = datagrams.open(key, &[0; 40], &mut [0; 7]);
        assert_eq!(opened, Err(Refusal::Room));
    }
}
