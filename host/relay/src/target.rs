//! Where a client wants its data to go.

use std::net::{Ipv4Addr, Ipv6Addr};
use std::ops::Range;

use crate::address::{self, Address};
use crate::answer;

/// The target that an opened header names (a server's datagram: its source),
/// without its port.
#[derive(Clone, Debug, PartialEq, Eq, Hash)]
pub enum Target {
    /// An IPv4 address.
    V4(Ipv4Addr),
    /// An IPv6 address.
    V6(Ipv6Addr),
    /// The place of a name in the plaintext. A name is any 1 to 255 bytes.
    Name(Range<usize>),
}

impl Target {
    /// The name, where the target is one.
    ///
    /// # Panics
    ///
    /// May panic if `plaintext` is not the buffer that the header was opened to.
    pub fn name<'a>(&self, plaintext: &'a [u8]) -> Option<&'a [u8]> {
        match self {
            Self::Name(place) => Some(&plaintext[place.clone()]),
            _ => None,
        }
    }

    /// The address with its port, to be sealed again.
    pub(crate) fn address(&self, port: u16, plaintext: &[u8]) -> Address {
        match self {
            Self::V4(v4) => Address::v4(*v4, port),
            Self::V6(v6) => Address::v6(*v6, port),
            Self::Name(place) => Address::name(&plaintext[place.clone()], port)
                .expect("an opened name has 1 to 255 bytes"),
        }
    }

    /// The target of an answer's words: kind and two numbers.
    pub(crate) fn from_library(kind: u64, first: u64, second: u64) -> Self {
        match u8::try_from(kind) {
            Ok(address::IPV4) => {
                let number = u32::try_from(first).expect("an IPv4 address has 32 bits");
                Self::V4(Ipv4Addr::from(number))
            }
            Ok(address::IPV6) => {
                let number = u128::from(first) << 64 | u128::from(second);
                Self::V6(Ipv6Addr::from(number))
            }
            Ok(address::NAME) => {
                let place = answer::length(first);
                Self::Name(place..place + answer::length(second))
            }
            _ => unreachable!("librelay.a answered {kind}, which is no kind of target"),
        }
    }
}
