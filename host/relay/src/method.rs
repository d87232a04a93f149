//! The methods of Shadowsocks 2022.

use std::error::Error;
use std::fmt;
use std::str::FromStr;

use crate::Nonce;

/// A method: which cipher, and how long its keys and salts are.
///
/// The three with ChaCha are section 4's of SIP022, for processors without AES
/// instructions; up to the verdict on a tag nothing secret decides which way their code
/// goes or which place it reads. Their datagrams take a [`Nonce`](crate::Nonce) each.
///
/// ```
/// use relay::Method;
///
/// let method: Method = "2022-blake3-aes-256-gcm".parse()?;
/// assert_eq!(method, Method::Aes256Gcm);
/// assert_eq!(method.key_len(), 32);
/// # Ok::<(), relay::UnknownMethod>(())
/// ```
#[derive(Clone, Copy, Debug, PartialEq, Eq, Hash)]
pub enum Method {
    /// `2022-blake3-aes-128-gcm`: 16-byte keys and salts.
    Aes128Gcm,
    /// `2022-blake3-aes-256-gcm`: 32-byte keys and salts.
    Aes256Gcm,
    /// `2022-blake3-chacha20-poly1305`: 32-byte keys and salts.
    ChaCha20Poly1305,
    /// `2022-blake3-chacha12-poly1305`: 32-byte keys and salts, 12 rounds instead of 20.
    ChaCha12Poly1305,
    /// `2022-blake3-chacha8-poly1305`: 32-byte keys and salts, 8 rounds instead of 20.
    ChaCha8Poly1305,
}

/// The length of a tag.
const TAG: usize = 16;

/// Session ID and packet ID, which methods 1 and 2 have in a separate header before the
/// body and the others at the start of the plaintext.
const IDS: usize = 16;

impl Method {
    /// Every method, by number.
    pub const ALL: [Self; 5] = [
        Self::Aes128Gcm,
        Self::Aes256Gcm,
        Self::ChaCha20Poly1305,
        Self::ChaCha12Poly1305,
        Self::ChaCha8Poly1305,
    ];

    /// The method's number, as C callers and a pool's first word have it.
    pub const fn number(self) -> u64 {
        match self {
            Self::Aes128Gcm => 1,
            Self::Aes256Gcm => 2,
            Self::ChaCha20Poly1305 => 3,
            Self::ChaCha12Poly1305 => 4,
            Self::ChaCha8Poly1305 => 5,
        }
    }

    /// The method of a number, if there is one.
    pub fn from_number(number: u64) -> Option<Self> {
        Self::ALL
            .into_iter()
            .find(|method| method.number() == number)
    }

    /// The length of a key in bytes.
    pub const fn key_len(self) -> usize {
        match self {
            Self::Aes128Gcm => 16,
            Self::Aes256Gcm
            | Self::ChaCha20Poly1305
            | Self::ChaCha12Poly1305
            | Self::ChaCha8Poly1305 => 32,
        }
    }

    /// The length of a salt in bytes, which is that of a key.
    pub const fn salt_len(self) -> usize {
        self.key_len()
    }

    /// Whether sealing a datagram takes a [`Nonce`](crate::Nonce) from the host.
    pub const fn takes_nonce(self) -> bool {
        match self {
            Self::Aes128Gcm | Self::Aes256Gcm => false,
            Self::ChaCha20Poly1305 | Self::ChaCha12Poly1305 | Self::ChaCha8Poly1305 => true,
        }
    }

    /// How many bytes a datagram has besides its plaintext, the tag among them: 32, or 40
    /// where it takes a nonce.
    pub const fn datagram_overhead(self) -> usize {
        if self.takes_nonce() {
            Nonce::LENGTH + TAG
        } else {
            IDS + TAG
        }
    }

    /// How many bytes a datagram has around its main header, which begins with the type,
    /// and what follows in the plaintext.
    pub(crate) const fn around_main_header(self) -> usize {
        if self.takes_nonce() {
            self.datagram_overhead() + IDS
        } else {
            self.datagram_overhead()
        }
    }

    /// The method's name in SIP022.
    pub const fn name(self) -> &'static str {
        match self {
            Self::Aes128Gcm => "2022-blake3-aes-128-gcm",
            Self::Aes256Gcm => "2022-blake3-aes-256-gcm",
            Self::ChaCha20Poly1305 => "2022-blake3-chacha20-poly1305",
            Self::ChaCha12Poly1305 => "2022-blake3-chacha12-poly1305",
            Self::ChaCha8Poly1305 => "2022-blake3-chacha8-poly1305",
        }
    }
}

impl fmt::Display for Method {
    fn fmt(&self, f: &mut fmt::Formatter<'_>) -> fmt::Result {
        f.pad(self.name())
    }
}

impl FromStr for Method {
    type Err = UnknownMethod;

    /// Finds a method by its exact name.
    fn from_str(name: &str) -> Result<Self, UnknownMethod> {
        Self::ALL
            .into_iter()
            .find(|method| method.name() == name)
            .ok_or_else(|| UnknownMethod {
                name: name.to_string(),
            })
    }
}

/// There is no method of that name.
#[derive(Clone, Debug, PartialEq, Eq)]
pub struct UnknownMethod {
    /// The name that was given.
    pub name: String,
}

impl fmt::Display for UnknownMethod {
    fn fmt(&self, f: &mut fmt::Formatter<'_>) -> fmt::Result {
        tell_unknown(f, &Method::ALL.map(Method::name), &self.name)
    }
}

/// Says which methods there are, and that this is none of them.
pub(crate) fn tell_unknown(f: &mut fmt::Formatter<'_>, all: &[&str], name: &str) -> fmt::Result {
    let (last, others) = all.split_last().unwrap_or((&"none", &[]));
    write!(
        f,
        "a method is {} or {last}, not {name:?}",
        others.join(", ")
    )
}

impl Error for UnknownMethod {}

#[cfg(test)]
mod tests {
    use super::Method;

    #[test]
    fn names_and_numbers_are_read_back() {
        for method in Method::ALL {
            assert_eq!(method.name().parse(), Ok(method));
            assert_eq!(Method::from_number(method.number()), Some(method));
        }
    }

    #[test]
    fn other_names_and_numbers_are_none() {
        for name in ["", "aes-128-gcm", "2022-BLAKE3-AES-128-GCM"] {
            let unknown = name.parse::<Method>().unwrap_err();
            assert_eq!(unknown.name, name);
        }
        for number in [0, 6, 11, 257, (1 << 32) + 1, u64::MAX] {
            assert_eq!(Method::from_number(number), None);
        }
    }

    #[test]
    fn an_unknown_name_is_told() {
        let unknown = "2022-blake3-chacha7-poly1305".parse::<Method>();
        assert_eq!(
            unknown.unwrap_err().to_string(),
            "a method is 2022-blake3-aes-128-gcm, 2022-blake3-aes-256-gcm, \
             2022-blake3-chacha20-poly1305, 2022-blake3-chacha12-poly1305 or \
             2022-blake3-chacha8-poly1305, not \"2022-blake3-chacha7-poly1305\""
        );
    }

    #[test]
    fn a_datagram_has_32_or_40_bytes_besides_its_plaintext() {
        assert_eq!(
            Method::ALL.map(Method::datagram_overhead),
            [32, 32, 40, 40, 40]
        );
        assert_eq!(
            Method::ALL.map(Method::around_main_header),
            [32, 32, 56, 56, 56]
        );
    }
}
