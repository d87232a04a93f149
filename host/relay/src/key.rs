//! Shared keys.

use std::fmt;

use crate::secret::KeyBytes;
use crate::{base64, Invalid, Method};

/// A shared key and its method.
///
/// Its bytes are not shown by `Debug`, and they are overwritten when the key is
/// dropped. That is best effort: copies made by moves or by the compiler stay
/// where they were.
#[derive(Clone)]
pub struct Key {
    method: Method,
    bytes: KeyBytes,
}

impl Key {
    /// Makes a key of its bytes, which are to be random.
    ///
    /// # Errors
    ///
    /// [`Invalid::KeyLength`] if there are not [`key_len`](Method::key_len) bytes.
    ///
    /// ```
    /// use relay::{Key, Method};
    ///
    /// let key = Key::new(Method::Aes128Gcm, &[0x4b; 16])?;
    /// assert_eq!(format!("{key:?}"), "Key { method: Aes128Gcm, .. }");
    /// # Ok::<(), relay::Invalid>(())
    /// ```
    pub fn new(method: Method, key: &[u8]) -> Result<Self, Invalid> {
        let length = key.len();
        if length != method.key_len() {
            return Err(Invalid::KeyLength { method, length });
        }
        Ok(Self {
            method,
            bytes: KeyBytes::new(key),
        })
    }

    /// Makes a key of the Base64 of its bytes, as people write keys down. What is decoded on
    /// the way is overwritten; the text is the caller's.
    ///
    /// # Errors
    ///
    /// [`Invalid::Base64`] if the text is none ([`base64::decode`]), else as
    /// [`new`](Key::new).
    ///
    /// ```
    /// use relay::{Key, Method};
    ///
    /// let key = Key::from_base64(Method::Aes128Gcm, "S0tLS0tLS0tLS0tLS0tLSw==\n")?;
    /// assert_eq!(key.method(), Method::Aes128Gcm);
    /// # Ok::<(), relay::Invalid>(())
    /// ```
    pub fn from_base64(method: Method, text: &str) -> Result<Self, Invalid> {
        base64::with_decoded(text, |key| Self::new(method, key))
    }

    /// The method that the key is for.
    pub fn method(&self) -> Method {
        self.method
    }

    pub(crate) fn bytes(&self) -> &[u8] {
        self.bytes.as_slice()
    }
}

impl fmt::Debug for Key {
    fn fmt(&self, f: &mut fmt::Formatter<'_>) -> fmt::Result {
        f.debug_struct("Key")
            .field("method", &self.method)
            .finish_non_exhaustive()
    }
}

#[cfg(test)]
mod tests {
    use super::Key;
    use crate::{base64, Invalid, Method};

    #[test]
    fn a_key_is_read_from_its_text() {
        for method in Method::ALL {
            let bytes = vec![0xfb; method.key_len()];
            for text in [base64::encode(&bytes), base64::encode_url(&bytes)] {
                let key = Key::from_base64(method, &text).unwrap();
                assert_eq!((key.method(), key.bytes()), (method, &bytes[..]));
            }
            let length = bytes.len() + 1;
            let longer = base64::encode(&vec![0xfb; length]);
            let invalid = Key::from_base64(method, &longer).unwrap_err();
            assert_eq!(invalid, Invalid::KeyLength { method, length });
        }
    }

    #[test]
    fn only_the_methods_own_length_is_taken() {
        for method in Method::ALL {
            for length in 0..=64 {
                let made = Key::new(method, &vec![1; length]);
                match made {
                    Ok(key) => assert_eq!(key.bytes().len(), method.key_len()),
                    Err(invalid) => {
                        assert_ne!(length, method.key_len());
                        assert_eq!(invalid, Invalid::KeyLength { method, length });
                    }
                }
            }
        }
    }
}
