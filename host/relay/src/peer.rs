//! Where datagrams come from.

use std::fmt;
use std::net::{Ipv6Addr, SocketAddr};

/// The address that a datagram came from: two numbers and a port.
///
/// The library keeps them and gives no meaning to them. Made of a [`SocketAddr`],
/// the numbers are the two halves of the IPv6 address; an IPv4 address is taken as
/// the IPv4-mapped one (`::ffff:192.0.2.1`) and turned back into an IPv4 address.
/// The flow label and the scope of an IPv6 address are not kept.
///
/// ```
/// use std::net::SocketAddr;
/// use relay::Peer;
///
/// let caller: SocketAddr = "192.0.2.1:4000".parse()?;
/// let peer = Peer::from(caller);
/// assert_eq!((peer.first, peer.second, peer.port), (0, 0xffff_c000_0201, 4000));
/// assert_eq!(SocketAddr::from(peer), caller);
/// assert_eq!(peer.to_string(), "192.0.2.1:4000");
/// # Ok::<(), std::net::AddrParseError>(())
/// ```
#[derive(Clone, Copy, Debug, PartialEq, Eq, Hash)]
pub struct Peer {
    /// The first 8 bytes of the address, big-endian.
    pub first: u64,
    /// The last 8 bytes of the address, big-endian.
    pub second: u64,
    /// The port.
    pub port: u16,
}

impl From<SocketAddr> for Peer {
    fn from(address: SocketAddr) -> Self {
        let v6 = match address {
            SocketAddr::V4(v4) => v4.ip().to_ipv6_mapped(),
            SocketAddr::V6(v6) => *v6.ip(),
        };
        let number = u128::from(v6);
        Self {
            first: (number >> 64) as u64,
            second: number as u64,
            port: address.port(),
        }
    }
}

impl From<Peer> for SocketAddr {
    fn from(peer: Peer) -> Self {
        let number = u128::from(peer.first) << 64 | u128::from(peer.second);
        // Canonical: an IPv4-mapped address becomes the IPv4 address.
        let address = Ipv6Addr::from(number).to_canonical();
        Self::new(address, peer.port)
    }
}

/// As a [`SocketAddr`].
impl fmt::Display for Peer {
    fn fmt(&self, f: &mut fmt::Formatter<'_>) -> fmt::Result {
        SocketAddr::from(*self).fmt(f)
    }
}
