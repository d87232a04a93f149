//! The methods of the 2017 edition.

use std::error::Error;
use std::fmt;
use std::str::FromStr;

use crate::method::tell_unknown;

/// A method of the 2017 edition: how long its keys and salts are.
///
/// ```
/// use relay::sip004::Method;
///
/// let method: Method = "aes-192-gcm".parse()?;
/// assert_eq!(method, Method::Aes192Gcm);
/// assert_eq!(method.salt_len(), 24);
/// # Ok::<(), relay::sip004::UnknownMethod>(())
/// ```
#[derive(Clone, Copy, Debug, PartialEq, Eq, Hash)]
pub enum Method {
    /// `aes-128-gcm`: 16-byte keys and salts.
    Aes128Gcm,
    /// `aes-192-gcm`: 24-byte keys and salts.
    Aes192Gcm,
    /// `aes-256-gcm`: 32-byte keys and salts.
    Aes256Gcm,
}

impl Method {
    /// Every method, by number.
    pub const ALL: [Self; 3] = [Self::Aes128Gcm, Self::Aes192Gcm, Self::Aes256Gcm];

    /// The method's number, as C callers and a stream's words have it. No method of
    /// Shadowsocks 2022 has the same.
    pub const fn number(self) -> u64 {
        match self {
            Self::Aes128Gcm => 11,
            Self::Aes192Gcm => 12,
            Self::Aes256Gcm => 13,
        }
    }

    /// The method of a number, if there is one.
    pub fn from_number(number: u64) -> Option<Self> {
        Self::ALL
            .into_iter()
            .find(|method| method.number() == number)
    }

    /// The length of a key in bytes.
    pub const fn key_len(self) -> usize {
        match self {
            Self::Aes128Gcm => 16,
            Self::Aes192Gcm => 24,
            Self::Aes256Gcm => 32,
        }
    }

    /// The length of a salt in bytes, which is that of a key.
    pub const fn salt_len(self) -> usize {
        self.key_len()
    }

    /// The method's name in SIP004.
    pub const fn name(self) -> &'static str {
        match self {
            Self::Aes128Gcm => "aes-128-gcm",
            Self::Aes192Gcm => "aes-192-gcm",
            Self::Aes256Gcm => "aes-256-gcm",
        }
    }
}

impl fmt::Display for Method {
    fn fmt(&self, f: &mut fmt::Formatter<'_>) -> fmt::Result {
        f.pad(self.name())
    }
}

impl FromStr for Method {
    type Err = UnknownMethod;

    /// Finds a method by its exact name.
    fn from_str(name: &str) -> Result<Self, UnknownMethod> {
        Self::ALL
            .into_iter()
            .find(|method| method.name() == name)
            .ok_or_else(|| UnknownMethod {
                name: name.to_string(),
            })
    }
}

/// There is no method of that name in the 2017 edition.
#[derive(Clone, Debug, PartialEq, Eq)]
pub struct UnknownMethod {
    /// The name that was given.
    pub name: String,
}

impl fmt::Display for UnknownMethod {
    fn fmt(&self, f: &mut fmt::Formatter<'_>) -> fmt::Result {
        tell_unknown(f, &Method::ALL.map(Method::name), &self.name)
    }
}

impl Error for UnknownMethod {}

#[cfg(test)]
mod tests {
    use super::Method;

    #[test]
    fn names_and_numbers_are_read_back() {
        for method in Method::ALL {
            assert_eq!(method.name().parse(), Ok(method));
            assert_eq!(Method::from_number(method.number()), Some(method));
        }
    }

    #[test]
    fn other_names_and_numbers_are_none() {
        for name in ["", "2022-blake3-aes-128-gcm", "AES-128-GCM"] {
            let unknown = name.parse::<Method>().unwrap_err();
            assert_eq!(unknown.name, name);
        }
        for number in [0, 1, 2, 10, 14, 256 + 11, (1 << 32) + 11, u64::MAX] {
            assert_eq!(Method::from_number(number), None);
        }
    }

    #[test]
    fn an_unknown_name_is_told() {
        let unknown = "chacha20-ietf-poly1305".parse::<Method>().unwrap_err();
        assert_eq!(
            unknown.to_string(),
            "a method is aes-128-gcm, aes-192-gcm or aes-256-gcm, not \"chacha20-ietf-poly1305\""
        );
    }
}
