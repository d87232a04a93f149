//! Addresses to seal, as SOCKS5 writes them (RFC 1928, section 5).

use std::fmt;
use std::net::{Ipv4Addr, Ipv6Addr, SocketAddr};
use std::str::FromStr;

use crate::Invalid;

/// Kind bytes.
pub(crate) const IPV4: u8 = 1;
pub(crate) const NAME: u8 = 3;
pub(crate) const IPV6: u8 = 4;

/// The bytes of a port.
const PORT: usize = 2;

/// Kind, length, a name of one byte or the longest one, and the port.
const SHORTEST: usize = 1 + 1 + 1 + PORT;
pub(crate) const LONGEST: usize = 1 + 1 + 255 + PORT;

/// An address to seal: an IPv4 or IPv6 address or a name, and a port.
///
/// It is kept as the bytes that are sealed, without allocation.
///
/// ```
/// use std::net::SocketAddr;
/// use relay::Address;
///
/// let resolver = Address::from(SocketAddr::from(([192, 0, 2, 1], 53)));
/// assert_eq!(resolver.as_bytes(), [1, 192, 0, 2, 1, 0, 53]);
///
/// let site: Address = "example.com:443".parse()?;
/// assert_eq!(site, Address::name(b"example.com", 443)?);
/// assert_eq!(site.to_string(), "example.com:443");
/// # Ok::<(), relay::Invalid>(())
/// ```
#[derive(Clone)]
pub struct Address {
    bytes: [u8; LONGEST],
    length: usize,
}

impl Address {
    /// The address of a name and a port. A name is any 1 to 255 bytes.
    ///
    /// # Errors
    ///
    /// [`Invalid::NameLength`] if the name is empty or longer than 255 bytes.
    pub fn name(name: &[u8], port: u16) -> Result<Self, Invalid> {
        let length = name.len();
        match u8::try_from(length) {
            Ok(byte @ 1..) => Ok(Self::of(&[NAME, byte], name, port)),
            _ => Err(Invalid::NameLength { length }),
        }
    }

    /// The address that the bytes are: exactly one, with its port, and nothing
    /// behind it.
    ///
    /// # Errors
    ///
    /// [`Invalid::AddressKind`], [`Invalid::NameLength`] (0) or
    /// [`Invalid::AddressLength`] if they are not.
    pub fn from_bytes(bytes: &[u8]) -> Result<Self, Invalid> {
        let wanted = Self::length_in(bytes)?.unwrap_or(SHORTEST);
        let length = bytes.len();
        if length != wanted {
            return Err(Invalid::AddressLength { wanted, length });
        }
        let mut address = Self {
            bytes: [0; LONGEST],
            length,
        };
        address.bytes[..length].copy_from_slice(bytes);
        Ok(address)
    }

    /// The address in front of bytes, and the bytes behind it. `None` wants more bytes.
    ///
    /// In the 2017 edition a client's text begins so.
    ///
    /// ```
    /// use relay::Address;
    ///
    /// let address = Address::name(b"example.com", 80)?;
    /// let text = [address.as_bytes(), b"GET /"].concat();
    /// assert_eq!(Address::split(&text[..10])?, None);
    /// assert_eq!(Address::split(&text)?, Some((address, &b"GET /"[..])));
    /// # Ok::<(), relay::Invalid>(())
    /// ```
    ///
    /// # Errors
    ///
    /// [`Invalid::AddressKind`] or [`Invalid::NameLength`] (0) if no address begins so.
    pub fn split(text: &[u8]) -> Result<Option<(Self, &[u8])>, Invalid> {
        let Some(length) = Self::length_in(text)? else {
            return Ok(None);
        };
        match text.split_at_checked(length) {
            Some((front, behind)) => Ok(Some((Self::from_bytes(front)?, behind))),
            None => Ok(None),
        }
    }

    /// How many bytes an address has that begins so. `None` wants more bytes.
    fn length_in(bytes: &[u8]) -> Result<Option<usize>, Invalid> {
        match *bytes {
            [IPV4, ..] => Ok(Some(1 + 4 + PORT)),
            [IPV6, ..] => Ok(Some(1 + 16 + PORT)),
            [NAME, 0, ..] => Err(Invalid::NameLength { length: 0 }),
            [NAME, name, ..] => Ok(Some(2 + usize::from(name) + PORT)),
            [NAME] | [] => Ok(None),
            [kind, ..] => Err(Invalid::AddressKind { kind }),
        }
    }

    /// The bytes that are sealed: 5 to 259.
    pub fn as_bytes(&self) -> &[u8] {
        &self.bytes[..self.length]
    }

    /// The port.
    pub fn port(&self) -> u16 {
        let port = &self.as_bytes()[self.length - PORT..];
        u16::from_be_bytes([port[0], port[1]])
    }

    /// The address and the port, unless it is a name.
    pub fn socket_addr(&self) -> Option<SocketAddr> {
        let port = self.port();
        match *self.as_bytes() {
            [IPV4, a, b, c, d, ..] => Some(SocketAddr::from(([a, b, c, d], port))),
            [IPV6, ref host @ ..] => {
                let octets: [u8; 16] = *host.first_chunk()?;
                Some(SocketAddr::from((octets, port)))
            }
            _ => None,
        }
    }

    /// The name, if it is one: any 1 to 255 bytes.
    pub fn host_name(&self) -> Option<&[u8]> {
        match self.as_bytes() {
            [NAME, _, name @ .., _, _] => Some(name),
            _ => None,
        }
    }

    pub(crate) fn v4(address: Ipv4Addr, port: u16) -> Self {
        Self::of(&[IPV4], &address.octets(), port)
    }

    pub(crate) fn v6(address: Ipv6Addr, port: u16) -> Self {
        Self::of(&[IPV6], &address.octets(), port)
    }

    /// The caller sees to it that the parts have room.
    fn of(front: &[u8], host: &[u8], port: u16) -> Self {
        let mut bytes = [0; LONGEST];
        let mut length = 0;
        for part in [front, host, &port.to_be_bytes()] {
            bytes[length..length + part.len()].copy_from_slice(part);
            length += part.len();
        }
        Self { bytes, length }
    }
}

/// The flow label and the scope of an IPv6 address are not kept.
impl From<SocketAddr> for Address {
    fn from(address: SocketAddr) -> Self {
        match address {
            SocketAddr::V4(v4) => Self::v4(*v4.ip(), v4.port()),
            SocketAddr::V6(v6) => Self::v6(*v6.ip(), v6.port()),
        }
    }
}

impl PartialEq for Address {
    fn eq(&self, other: &Self) -> bool {
        self.as_bytes() == other.as_bytes()
    }
}

impl Eq for Address {}

impl fmt::Display for Address {
    fn fmt(&self, f: &mut fmt::Formatter<'_>) -> fmt::Result {
        match (self.socket_addr(), self.host_name()) {
            (Some(address), _) => write!(f, "{address}"),
            // A name may hold any bytes.
            (None, name) => {
                let name = name.unwrap_or_default().escape_ascii();
                write!(f, "{name}:{}", self.port())
            }
        }
    }
}

impl FromStr for Address {
    type Err = Invalid;

    /// Reads `HOST:PORT`, where the host is an IPv4 address, an IPv6 address in brackets
    /// or a name of letters, digits, `-`, `_` and `.`. A name does not end in a number, as
    /// a mistyped IPv4 address does.
    ///
    /// # Errors
    ///
    /// [`Invalid::AddressText`], or [`Invalid::NameLength`] if a name is longer than 255
    /// bytes.
    fn from_str(text: &str) -> Result<Self, Invalid> {
        let (host, port) = text.rsplit_once(':').ok_or(Invalid::AddressText)?;
        let is_number = port.bytes().all(|digit| digit.is_ascii_digit());
        let port = port.parse().ok().filter(|_| is_number);
        let port = port.ok_or(Invalid::AddressText)?;
        let brackets = host.strip_prefix('[').and_then(|h| h.strip_suffix(']'));
        if let Some(v6) = brackets {
            let address = v6.parse().map_err(|_| Invalid::AddressText)?;
            return Ok(Self::v6(address, port));
        }
        match host.parse() {
            Ok(address) => Ok(Self::v4(address, port)),
            Err(_) if is_name(host) => Self::name(host.as_bytes(), port),
            Err(_) => Err(Invalid::AddressText),
        }
    }
}

/// Whether a text is taken for the name of a host.
fn is_name(text: &str) -> bool {
    let is_letter = |byte: u8| byte.is_ascii_alphanumeric() || b"-_.".contains(&byte);
    let labels = text.strip_suffix('.').unwrap_or(text);
    let last = labels.rsplit('.').next().unwrap_or_default();
    text.bytes().all(is_letter) && !last.bytes().all(|byte| byte.is_ascii_digit())
}

impl fmt::Debug for Address {
    fn fmt(&self, f: &mut fmt::Formatter<'_>) -> fmt::Result {
        write!(f, "Address({self})")
    }
}
