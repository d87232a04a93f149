//! Target addresses of RFC 1928.

use std::net::{Ipv4Addr, Ipv6Addr};
use std::ops::Range;

#[derive(Debug, PartialEq, Eq)]
pub enum Target {
    V4(Ipv4Addr),
    V6(Ipv6Addr),
    /// Where the name stands in the bytes that were parsed.
    Name(Range<usize>),
}

#[derive(Debug, PartialEq, Eq)]
pub struct Address {
    pub target: Target,
    pub port: u16,
    /// Where it ends in the bytes that were parsed.
    pub end: usize,
}

impl Address {
    /// The address that begins at a place. `None` where there is none.
    pub fn parse(bytes: &[u8], at: usize) -> Option<Self> {
        let (target, end) = target(bytes, at)?;
        let port = u16::from_be_bytes(array(bytes, end)?);
        let end = end + 2;
        Some(Self { target, port, end })
    }
}

/// A target, and where it ends.
fn target(bytes: &[u8], at: usize) -> Option<(Target, usize)> {
    let from = at + 1;
    match bytes.get(at)? {
        1 => Some((Target::V4(array::<4>(bytes, from)?.into()), from + 4)),
        3 => {
            let length = usize::from(*bytes.get(from)?);
            let name = from + 1..from + 1 + length;
            let is_whole = length > 0 && name.end <= bytes.len();
            is_whole.then(|| (Target::Name(name.clone()), name.end))
        }
        4 => Some((Target::V6(array::<16>(bytes, from)?.into()), from + 16)),
        _ => None,
    }
}

fn array<const N: usize>(bytes: &[u8], at: usize) -> Option<[u8; N]> {
    bytes.get(at..)?.first_chunk().copied()
}

#[cfg(test)]
mod tests {
    use super::{Address, Target};

    #[test]
    fn each_kind_is_read() {
        let v4 = Address::parse(&[9, 1, 192, 0, 2, 1, 0, 80, 9], 1).expect("an address");
        assert_eq!(v4.target, Target::V4([192, 0, 2, 1].into()));
        assert_eq!((v4.port, v4.end), (80, 8));
        let name = Address::parse(&[3, 1, b'a', 0, 80], 0).expect("an address");
        assert_eq!((name.target, name.port), (Target::Name(2..3), 80));
        let mut v6 = [0; 19];
        v6[0] = 4;
        v6[16] = 1;
        let v6 = Address::parse(&v6, 0).expect("an address");
        assert_eq!(v6.target, Target::V6([0, 0, 0, 0, 0, 0, 0, 1].into()));
    }

    #[test]
    fn what_is_no_address_is_refused() {
        for bytes in [
            &[][..],
            &[1, 192, 0, 2, 1, 0],
            &[2, 192, 0, 2, 1, 0, 80],
            &[3, 0, 0, 80],
            &[3, 2, b'a', 0, 80],
            &[4, 0, 0],
        ] {
            assert_eq!(Address::parse(bytes, 0), None, "{bytes:?}");
        }
    }
}
