//! Addresses as sockets take and give them.

use std::net::{IpAddr, SocketAddr, SocketAddrV6};

/// The address as a socket of IPv6 takes it: IPv4 as the mapped one.
pub fn mapped(address: SocketAddr) -> SocketAddr {
    match address {
        SocketAddr::V4(v4) => SocketAddrV6::new(v4.ip().to_ipv6_mapped(), v4.port(), 0, 0).into(),
        v6 => v6,
    }
}

/// The address as it is meant: a mapped one as IPv4.
pub fn canonical(address: SocketAddr) -> SocketAddr {
    match address.ip().to_canonical() {
        IpAddr::V4(v4) => SocketAddr::from((v4, address.port())),
        // The scope of a link-local address stays.
        IpAddr::V6(_) => address,
    }
}

#[cfg(test)]
mod tests {
    use super::{canonical, mapped};

    #[test]
    fn mapped_addresses_come_back() {
        let v4 = "192.0.2.1:53".parse().unwrap();
        let v6 = "[2001:db8::1]:53".parse().unwrap();
        assert_eq!(mapped(v4), "[::ffff:192.0.2.1]:53".parse().unwrap());
        assert_eq!(canonical(mapped(v4)), v4);
        assert_eq!((mapped(v6), canonical(v6)), (v6, v6));
    }
}
