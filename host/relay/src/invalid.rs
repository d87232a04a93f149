//! Why something cannot be made of what the host gave.

use std::error::Error;
use std::fmt;

use crate::{settings, sip004, Method, Refusal};

/// Why a key, an address, a table or a session cannot be made of what was given.
///
/// It says what was wrong. For a program that looks at refusals alone it is one of
/// them, as `?` and `From` turn it into the [`Refusal`] that the library has for it.
///
/// ```
/// use relay::{Key, Method, Refusal};
///
/// let invalid = Key::new(Method::Aes128Gcm, &[7; 15]).unwrap_err();
/// assert_eq!(invalid.to_string(), "a key of 2022-blake3-aes-128-gcm has 16 bytes, not 15");
/// assert_eq!(Refusal::from(invalid), Refusal::Settings);
/// ```
#[derive(Clone, Copy, Debug, PartialEq, Eq)]
#[non_exhaustive]
pub enum Invalid {
    /// A key has another length than its method's keys.
    KeyLength {
        /// The method that the key is for.
        method: Method,
        /// How many bytes were given.
        length: usize,
    },
    /// A key of the 2017 edition has another length than its method's keys.
    Sip004KeyLength {
        /// The method that the key is for.
        method: sip004::Method,
        /// How many bytes were given.
        length: usize,
    },
    /// A retention is neither 0 nor 60 to 3,600.
    Retention {
        /// The seconds that were given.
        seconds: u64,
    },
    /// A server's session is to have the ID of its client or of another client's session
    /// that is alive.
    SessionId {
        /// The ID of both.
        id: u64,
    },
    /// A table from words remembers for less than 60 or more than 3,600 seconds.
    TableRetention {
        /// How many seconds.
        seconds: u64,
    },
    /// A name is empty or longer than 255 bytes.
    NameLength {
        /// How many bytes were given.
        length: usize,
    },
    /// The first byte of an address is none of its three kinds.
    AddressKind {
        /// The first byte.
        kind: u8,
    },
    /// An address has another length than its first bytes say.
    AddressLength {
        /// How many bytes an address that begins so has, or the least there can be where
        /// too few were given to tell.
        wanted: usize,
        /// How many bytes were given.
        length: usize,
    },
    /// A text is not an address: see [`Address`](crate::Address)'s `FromStr`.
    AddressText,
    /// A text is not Base64.
    Base64 {
        /// The place, in bytes, where it goes wrong.
        place: usize,
    },
}

impl fmt::Display for Invalid {
    fn fmt(&self, f: &mut fmt::Formatter<'_>) -> fmt::Result {
        match *self {
            Self::KeyLength { method, length } => tell_key_length(f, method.into(), length),
            Self::Sip004KeyLength { method, length } => tell_key_length(f, method.into(), length),
            Self::Retention { seconds } => {
                write!(
                    f,
                    "a retention is 60 to 3,600 seconds, or 0 for 300, not {seconds}"
                )
            }
            Self::SessionId { id } => {
                write!(f, "a server's session ID is no client's; {id:016x} is")
            }
            Self::TableRetention { seconds } => {
                write!(
                    f,
                    "a table remembers for 60 to 3,600 seconds, not {seconds}"
                )
            }
            Self::NameLength { length } => write!(f, "a name has 1 to 255 bytes, not {length}"),
            Self::AddressKind { kind } => {
                write!(
                    f,
                    "an address begins with 1 (IPv4), 3 (a name) or 4 (IPv6), not {kind}"
                )
            }
            Self::AddressLength { wanted, length } => {
                write!(
                    f,
                    "an address that begins so has {wanted} bytes, not {length}"
                )
            }
            Self::AddressText => f.write_str(
                "an address is written 192.0.2.1:53, [2001:db8::1]:53 or example.com:53",
            ),
            Self::Base64 { place } => write!(f, "no Base64 at byte {place}"),
        }
    }
}

fn tell_key_length(
    f: &mut fmt::Formatter<'_>,
    method: settings::Method,
    length: usize,
) -> fmt::Result {
    let wanted = method.key_len();
    write!(f, "a key of {method} has {wanted} bytes, not {length}")
}

impl Error for Invalid {}

impl From<Invalid> for Refusal {
    fn from(invalid: Invalid) -> Self {
        match invalid {
            Invalid::KeyLength { .. }
            | Invalid::Sip004KeyLength { .. }
            | Invalid::Retention { .. }
            | Invalid::TableRetention { .. }
            | Invalid::Base64 { .. } => Self::Settings,
            Invalid::SessionId { .. }
            | Invalid::NameLength { .. }
            | Invalid::AddressKind { .. }
            | Invalid::AddressLength { .. }
            | Invalid::AddressText => Self::Argument,
        }
    }
}

#[cfg(test)]
mod tests {
    use crate::{sip004, Address, Invalid, Key, Method, Refusal, SealSession, Table};

    fn said<T>(made: Result<T, Invalid>) -> (String, Refusal) {
        let invalid = made.err().expect("nothing can be made of it");
        (invalid.to_string(), Refusal::from(invalid))
    }

    #[test]
    fn wrong_settings_say_what_was_wrong() {
        let key = said(Key::new(Method::Aes256Gcm, &[0; 33]));
        let older = said(sip004::Key::new(sip004::Method::Aes192Gcm, &[0; 32]));
        let retention = said(Table::new(59));
        let forgetful = Table::from_words(&[0; Table::WORDS]);
        let lent = said(SealSession::server(0xab, 0xab, 1_000, &forgetful));
        for ((text, refusal), expected) in [
            (key, "a key of 2022-blake3-aes-256-gcm has 32 bytes, not 33"),
            (older, "a key of aes-192-gcm has 24 bytes, not 32"),
            (
                said(Key::from_base64(Method::Aes128Gcm, " S0t?")),
                "no Base64 at byte 4",
            ),
            (
                retention,
                "a retention is 60 to 3,600 seconds, or 0 for 300, not 59",
            ),
            (lent, "a table remembers for 60 to 3,600 seconds, not 0"),
        ] {
            assert_eq!((text.as_str(), refusal), (expected, Refusal::Settings));
        }
    }

    #[test]
    fn wrong_arguments_say_what_was_wrong() {
        let clients = Table::new(60).unwrap();
        for ((text, refusal), expected) in [
            (
                said(SealSession::server(0xab, 0xab, 1_000, &clients)),
                "a server's session ID is no client's; 00000000000000ab is",
            ),
            (
                said(Address::name(&[b'n'; 256], 80)),
                "a name has 1 to 255 bytes, not 256",
            ),
            (
                said(Address::from_bytes(b"\x02")),
                "an address begins with 1 (IPv4), 3 (a name) or 4 (IPv6), not 2",
            ),
            (
                said(Address::from_bytes(b"\x03\x01a\x00")),
                "an address that begins so has 5 bytes, not 4",
            ),
            (
                said("192.0.2.1".parse::<Address>()),
                "an address is written 192.0.2.1:53, [2001:db8::1]:53 or example.com:53",
            ),
        ] {
            assert_eq!((text.as_str(), refusal), (expected, Refusal::Argument));
        }
    }
}
