//! What the tests share.

use std::net::SocketAddr;

use relay::stream::Opening;
use relay::{Address, Header, Key, Method, Nonce, Peer, Pool, Refusal, SealSession, Table};
use relay::{RequestFront, RequestHeader, RequestStream};

use crate::plain;

/// The key's bytes, 16 or 32 of them by method.
pub const KEY: [u8; 32] = *b"thirty-two bytes to serve as key";

pub const SALT: [u8; 32] = *b"thirty-two bytes to do for salt!";
pub const OTHER_SALT: [u8; 32] = *b"another salt of thirty-two bytes";

/// One for all datagrams, so that they can be compared.
pub const NONCE: [u8; 24] = *b"twenty-four for a nonce!";

pub const CLOCK: u64 = 1_000;
pub const CLIENT_ID: u64 = 0x0102_0304_0506_0708;
pub const SERVER_ID: u64 = 0x1112_1314_1516_1718;

/// Neither zero nor what any test seals.
pub const FILL: u8 = 0xa5;

pub fn key_bytes(method: Method) -> &'static [u8] {
    &KEY[..method.key_len()]
}

pub fn key(method: Method) -> Key {
    Key::new(method, key_bytes(method)).unwrap()
}

/// The nonce, where the method takes one.
pub fn nonce(method: Method) -> Option<Nonce> {
    method.takes_nonce().then(|| Nonce::new(NONCE))
}

/// How many bytes of a plaintext stand before its main header: both IDs, where there is no
/// separate header.
pub fn before_main_header(method: Method) -> usize {
    if method.takes_nonce() {
        16
    } else {
        0
    }
}

pub fn salt(method: Method) -> &'static [u8] {
    &SALT[..method.salt_len()]
}

pub fn peer() -> Peer {
    Peer::from(SocketAddr::from(([192, 0, 2, 1], 4_000)))
}

/// The shortest address: 03 01 61 00 50.
pub fn short_address() -> Address {
    Address::name(b"a", 80).unwrap()
}

/// Addresses of every kind, names of both ends of their length.
pub fn addresses() -> Vec<Address> {
    vec![
        Address::from(SocketAddr::from(([0, 0, 0, 0], 0))),
        Address::from(SocketAddr::from(([255, 254, 253, 252], 65_535))),
        "[2001:db8::1:2]:443".parse::<SocketAddr>().unwrap().into(),
        "[::ffff:192.0.2.1]:53"
            .parse::<SocketAddr>()
            .unwrap()
            .into(),
        short_address(),
        Address::name(b"example.com", 443).unwrap(),
        Address::name(&[0; 7], 1).unwrap(),
        Address::name(&[0xff; 255], 0x0102).unwrap(),
    ]
}

/// Bytes that differ from place to place.
pub fn payload(length: usize) -> Vec<u8> {
    (0..length).map(|index| (index % 251) as u8).collect()
}

/// A client's datagram to the short address, sealed with a packet ID at a clock.
pub fn sealed(method: Method, id: u64, packet_id: u64, clock: u64) -> Vec<u8> {
    let mut session = SealSession::from_words(&[0, id, 0, packet_id]);
    let mut out = vec![0; 128];
    let length = session
        .seal(
            &key(method),
            nonce(method),
            clock,
            &short_address(),
            0,
            b"text",
            &mut out,
        )
        .unwrap();
    out.truncate(length);
    out
}

/// A datagram of any main header and what follows it, sealed in plain Rust.
pub fn datagram_of(method: Method, id: u64, packet_id: u64, body: &[u8]) -> Vec<u8> {
    plain::datagram(method, key_bytes(method), &NONCE, id, packet_id, body)
}

/// A request's head of any fixed and variable header, sealed in plain Rust.
pub fn head_of(method: Method, fixed: &[u8], variable: &[u8]) -> Vec<u8> {
    plain::request_head(method, key_bytes(method), salt(method), fixed, variable)
}

/// A server's session in reply to the client's, begun on a table that has the client's.
pub fn reply_session() -> SealSession {
    let method = Method::Aes128Gcm;
    let mut table = Table::new(60).unwrap();
    open(
        &mut table,
        method,
        CLOCK,
        &sealed(method, CLIENT_ID, 0, CLOCK),
    )
    .unwrap();
    SealSession::server(SERVER_ID, CLIENT_ID, CLOCK, &table).unwrap()
}

/// Opens a client's datagram into a buffer of its own.
pub fn open(
    table: &mut Table,
    method: Method,
    clock: u64,
    datagram: &[u8],
) -> Result<Header, Refusal> {
    let mut out = vec![FILL; datagram.len()];
    table.open_server(&key(method), clock, peer(), datagram, &mut out)
}

/// Numbers that look random, the same in every run (splitmix64).
pub struct Random(pub u64);

impl Random {
    pub fn next(&mut self) -> u64 {
        self.0 = self.0.wrapping_add(0x9e37_79b9_7f4a_7c15);
        let mut z = self.0;
        z = (z ^ z >> 30).wrapping_mul(0xbf58_476d_1ce4_e5b9);
        z = (z ^ z >> 27).wrapping_mul(0x94d0_49bb_1331_11eb);
        z ^ z >> 31
    }

    pub fn below(&mut self, end: u64) -> u64 {
        self.next() % end
    }

    pub fn bytes(&mut self, length: usize) -> Vec<u8> {
        (0..length).map(|_| self.next() as u8).collect()
    }
}

/// A request that was opened in its two calls.
pub struct Opened {
    pub stream: RequestStream<Opening>,
    pub front: RequestFront,
    pub header: RequestHeader,
}

impl Opened {
    /// How many bytes the head has.
    pub fn used(&self) -> usize {
        self.front.used + self.header.used
    }
}

/// Opens a request's head: the front, and the variable header behind it.
pub fn open_request(
    key: &Key,
    clock: u64,
    bytes: &[u8],
    pool: &mut Pool,
    out: &mut [u8],
) -> Result<Opened, Refusal> {
    let (mut stream, front) = RequestStream::open(key, clock, bytes, pool)?;
    let header = stream.open_variable(&bytes[front.used..], out)?;
    Ok(Opened {
        stream,
        front,
        header,
    })
}
