//! Shared keys of the 2017 edition.

use std::fmt;

use super::Method;
use crate::secret::KeyBytes;
use crate::{base64, Invalid};

/// A shared key of the 2017 edition and its method.
///
/// As of [`relay::Key`](crate::Key), its bytes are not shown by `Debug` and are
/// overwritten, as well as can be, when it is dropped.
#[derive(Clone)]
pub struct Key {
    method: Method,
    bytes: KeyBytes,
}

impl Key {
    /// Makes a key of its bytes, which are to be random.
    ///
    /// # Errors
    ///
    /// [`Invalid::Sip004KeyLength`] if there are not [`key_len`](Method::key_len) bytes.
    ///
    /// ```
    /// use relay::sip004::{Key, Method};
    ///
    /// let key = Key::new(Method::Aes192Gcm, &[0x4b; 24])?;
    /// assert_eq!(format!("{key:?}"), "Key { method: Aes192Gcm, .. }");
    /// # Ok::<(), relay::Invalid>(())
    /// ```
    pub fn new(method: Method, key: &[u8]) -> Result<Self, Invalid> {
        let length = key.len();
        if length != method.key_len() {
            return Err(Invalid::Sip004KeyLength { method, length });
        }
        Ok(Self {
            method,
            bytes: KeyBytes::new(key),
        })
    }

    /// Makes a key of the Base64 of its bytes, as [`relay::Key`](crate::Key::from_base64)
    /// does.
    ///
    /// # Errors
    ///
    /// [`Invalid::Base64`] if the text is none, else as [`new`](Key::new).
    ///
    /// ```
    /// use relay::sip004::{Key, Method};
    ///
    /// let key = Key::from_base64(Method::Aes128Gcm, "S0tLS0tLS0tLS0tLS0tLSw==")?;
    /// assert_eq!(key.method(), Method::Aes128Gcm);
    /// # Ok::<(), relay::Invalid>(())
    /// ```
    pub fn from_base64(method: Method, text: &str) -> Result<Self, Invalid> {
        base64::with_decoded(text, |key| Self::new(method, key))
    }

    /// The method that the key is for.
    pub fn method(&self) -> Method {
        self.method
    }

    pub(crate) fn bytes(&self) -> &[u8] {
        self.bytes.as_slice()
    }
}

impl fmt::Debug for Key {
    fn fmt(&self, f: &mut fmt::Formatter<'_>) -> fmt::Result {
        f.debug_struct("Key")
            .field("method", &self.method)
            .finish_non_exhaustive()
    }
}

#[cfg(test)]
mod tests {
    use super::{Key, Method};
    use crate::{base64, Invalid};

    #[test]
    fn a_key_is_read_from_its_text() {
        for method in Method::ALL {
            let bytes = vec![0xfb; method.key_len()];
            let key = Key::from_base64(method, &base64::encode(&bytes)).unwrap();
            assert_eq!((key.method(), key.bytes()), (method, &bytes[..]));
            let length = bytes.len() - 1;
            let invalid = Key::from_base64(method, &base64::encode(&bytes[1..])).unwrap_err();
            assert_eq!(invalid, Invalid::Sip004KeyLength { method, length });
        }
    }

    #[test]
    fn only_the_methods_own_length_is_taken() {
        for method in Method::ALL {
            for length in 0..=64 {
                match Key::new(method, &vec![1; length]) {
                    Ok(key) => assert_eq!(key.bytes(), vec![1; method.key_len()]),
                    Err(invalid) => {
                        assert_ne!(length, method.key_len());
                        assert_eq!(invalid, Invalid::Sip004KeyLength { method, length });
                    }
                }
            }
        }
    }
}
