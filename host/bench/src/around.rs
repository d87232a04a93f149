//! Datagrams as one would write them without the proved library: another library's
//! ciphers with plain Rust around them.
//!
//! A call does the work of one of ours: it is given the key as bytes, expands it
//! and derives the session's subkey. Refusals come in the same order.

mod aes;
mod chacha;

pub use aes::{AesBody, SUBKEY_CONTEXT};
pub use chacha::{ChaChaBody, LONG_NONCE};

use crate::ciphers::TAG_LENGTH;
use crate::plain::{Address, Peer, Refusal, Sessions};

/// The separate header, and what stands for it in a plaintext.
pub const SEPARATE_LENGTH: usize = 16;

/// A client's main header before its padding: type, time and padding length.
pub const FIXED_LENGTH: usize = 11;

/// What UDP can carry over IPv4.
const LONGEST: usize = 65_507;

/// How many seconds a datagram's time and the clock may differ.
const TIME_SPAN: u64 = 30;

const CLIENT_TYPE: u8 = 0;

/// A datagram's two IDs.
#[derive(Clone, Copy, Debug, PartialEq, Eq)]
pub struct Separate {
    pub session: u64,
    pub packet: u64,
}

/// What an opened datagram says.
#[derive(Debug)]
#[allow(dead_code, reason = "only a relay that forwards would read all of it")]
pub struct Header {
    pub separate: Separate,
    pub time: u64,
    /// Its places are those in the plaintext, and its end is the payload's place.
    pub address: Address,
    pub padding: u16,
}

/// How a datagram's plaintext is sealed, and where its IDs stand.
pub trait Body {
    /// How many bytes stand before the sealed plaintext.
    const LEAD: usize;

    /// Where the main header begins in the plaintext.
    const START: usize;

    /// # Panics
    ///
    /// If no method has that key length.
    fn new(key_length: usize) -> Self;

    /// Seals a datagram whose main header and all behind it stand in their place already,
    /// before room for the tag.
    fn seal_in_place(&self, key: &[u8], separate: Separate, datagram: &mut [u8]);

    /// Opens a datagram to `plain`, which is as long as its plaintext, and answers its IDs.
    fn open(&self, key: &[u8], datagram: &[u8], plain: &mut [u8]) -> Result<Separate, Refusal>;
}

/// Clients' datagrams of the method with one key length.
pub struct Datagrams<B: Body> {
    body: B,
}

impl<B: Body> Datagrams<B> {
    /// What a datagram has besides address and payload.
    pub const OVERHEAD: usize = Self::BEFORE_MAIN + FIXED_LENGTH + TAG_LENGTH;

    /// Where the main header begins in a datagram.
    const BEFORE_MAIN: usize = B::LEAD + B::START;

    /// # Panics
    ///
    /// If no method has that key length.
    pub fn new(key_length: usize) -> Self {
        let body = B::new(key_length);
        Self { body }
    }

    /// Seals a datagram without padding to the front of `out` and answers its
    /// length.
    pub fn seal(
        &self,
        key: &[u8],
        separate: Separate,
        clock: u64,
        address: &[u8],
        payload: &[u8],
        out: &mut [u8],
    ) -> Result<usize, Refusal> {
        if Address::parse(address, 0).is_none_or(|parsed| parsed.end != address.len()) {
            return Err(Refusal::Argument);
        }
        if separate.packet == u64::MAX {
            return Err(Refusal::Counter);
        }
        let length = Self::OVERHEAD + address.len() + payload.len();
        if length > LONGEST {
            return Err(Refusal::Length);
        }
        let datagram = out.get_mut(..length).ok_or(Refusal::Room)?;
        let main = &mut datagram[Self::BEFORE_MAIN..length - TAG_LENGTH];
        write_fixed(main, clock);
        let (front, rest) = main[FIXED_LENGTH..].split_at_mut(address.len());
        front.copy_from_slice(address);
        rest.copy_from_slice(payload);
        self.body.seal_in_place(key, separate, datagram);
        Ok(length)
    }

    /// Seals a datagram of any main header, at its place in the datagram.
    pub fn seal_main(&self, key: &[u8], separate: Separate, main: &[u8], datagram: &mut [u8]) {
        datagram[Self::BEFORE_MAIN..][..main.len()].copy_from_slice(main);
        self.body.seal_in_place(key, separate, datagram);
    }

    /// Opens a datagram to the front of `out`. The libraries write the text before
    /// the tag is looked at, so `out` is written where the datagram is not authentic.
    pub fn open(
        &self,
        key: &[u8],
        clock: u64,
        peer: Peer,
        datagram: &[u8],
        sessions: &mut Sessions,
        out: &mut [u8],
    ) -> Result<Header, Refusal> {
        let due = datagram.len().checked_sub(B::LEAD + TAG_LENGTH);
        let due = due.ok_or(Refusal::Length)?;
        if datagram.len() > LONGEST {
            return Err(Refusal::Length);
        }
        let plain = out.get_mut(..due).ok_or(Refusal::Room)?;
        let separate = self.body.open(key, datagram, plain)?;
        let answer = read_main(separate, clock, plain, B::START).and_then(|header| {
            sessions.admit(clock, separate.session, separate.packet, peer)?;
            Ok(header)
        });
        if answer.is_err() {
            plain.fill(0);
        }
        answer
    }
}

impl Separate {
    fn bytes(self) -> [u8; SEPARATE_LENGTH] {
        let number = u128::from(self.session) << 64 | u128::from(self.packet);
        number.to_be_bytes()
    }

    fn of(bytes: &[u8; SEPARATE_LENGTH]) -> Self {
        let number = u128::from_be_bytes(*bytes);
        Self {
            session: (number >> 64) as u64,
            packet: number as u64,
        }
    }
}

/// Type, time and no padding.
fn write_fixed(main: &mut [u8], clock: u64) {
    main[0] = CLIENT_TYPE;
    main[1..9].copy_from_slice(&clock.to_be_bytes());
    main[9..FIXED_LENGTH].fill(0);
}

/// The main header begins at `start`.
fn read_main(
    separate: Separate,
    clock: u64,
    plain: &[u8],
    start: usize,
) -> Result<Header, Refusal> {
    let main = plain.get(start..).ok_or(Refusal::Malformed)?;
    let fixed: &[u8; FIXED_LENGTH] = main.first_chunk().ok_or(Refusal::Malformed)?;
    let [kind, time @ .., high, low] = *fixed;
    if kind != CLIENT_TYPE {
        return Err(Refusal::Type);
    }
    let time = u64::from_be_bytes(time);
    if time.abs_diff(clock) > TIME_SPAN {
        return Err(Refusal::Time);
    }
    let padding = u16::from_be_bytes([high, low]);
    let address = Address::parse(plain, start + FIXED_LENGTH + usize::from(padding));
    Ok(Header {
        separate,
        time,
        address: address.ok_or(Refusal::Malformed)?,
        padding,
    })
}

#[cfg(test)]
mod tests {
    use super::{AesBody, Body, ChaChaBody, Datagrams, Separate};
    use crate::bearssl::BearSslWithout;
    use crate::nettle::Nettle;
    use crate::openssl::OpenSsl;
    use crate::plain::{Address, Peer, Plain, Refusal, Sessions};
    use crate::sodium::Sodium;

    const KEY: [u8; 32] = [7; 32];
    const ADDRESS: [u8; 7] = [1, 192, 0, 2, 1, 0, 80];
    const SEPARATE: Separate = Separate {
        session: 0x0102_0304_0506_0708,
        packet: 5,
    };

    fn what_is_sealed_opens_once<B: Body>(key: &[u8]) {
        let datagrams = Datagrams::<B>::new(key.len());
        let mut sealed = [0; 128];
        let length = datagrams.seal(key, SEPARATE, 1_000, &ADDRESS, b"hello", &mut sealed);
        let sealed = &sealed[..length.expect("it is sealed")];
        let due = sealed.len() - B::LEAD - 16;
        let mut sessions = Sessions::new(60);
        let mut out = [1; 128];
        let mut open = |out: &mut [u8]| {
            datagrams.open(key, 1_030, Peer::default(), sealed, &mut sessions, out)
        };
        let header = open(&mut out).expect("it is opened");
        assert_eq!((header.separate, header.time), (SEPARATE, 1_000));
        assert_eq!((header.padding, header.address.port), (0, 80));
        let address = Address::parse(&ADDRESS, 0).expect("an address");
        assert_eq!(header.address.target, address.target);
        assert_eq!(&out[header.address.end..due], b"hello");
        assert_eq!(open(&mut out).unwrap_err(), Refusal::Replay);
        assert_eq!(out[..due], vec![0; due]);
        assert_eq!(out[due..], vec![1; 128 - due]);
    }

    #[test]
    fn what_a_library_sealed_opens_once() {
        for key in [&KEY[..16], &KEY] {
            what_is_sealed_opens_once::<AesBody<OpenSsl>>(key);
            what_is_sealed_opens_once::<AesBody<Nettle>>(key);
            what_is_sealed_opens_once::<AesBody<BearSslWithout>>(key);
        }
        what_is_sealed_opens_once::<ChaChaBody<OpenSsl>>(&KEY);
        what_is_sealed_opens_once::<ChaChaBody<Nettle>>(&KEY);
        what_is_sealed_opens_once::<ChaChaBody<BearSslWithout>>(&KEY);
        what_is_sealed_opens_once::<ChaChaBody<Sodium>>(&KEY);
        what_is_sealed_opens_once::<ChaChaBody<Plain<8>>>(&KEY);
    }

    fn refuses_what_ours_refuses<B: Body>(key: &[u8], longest: usize) {
        let datagrams = Datagrams::<B>::new(key.len());
        let seal = |packet, address: &[u8], payload: usize, room: usize| {
            let separate = Separate { packet, ..SEPARATE };
            let (payload, mut out) = (vec![0; payload], vec![0; room]);
            datagrams.seal(key, separate, 0, address, &payload, &mut out)
        };
        assert_eq!(seal(0, &ADDRESS, longest, 65_507), Ok(65_507));
        assert_eq!(seal(0, &ADDRESS, longest + 1, 70_000), Err(Refusal::Length));
        assert_eq!(seal(0, &ADDRESS, longest, 65_506), Err(Refusal::Room));
        assert_eq!(seal(u64::MAX, &ADDRESS, 0, 64), Err(Refusal::Counter));
        assert_eq!(seal(0, &ADDRESS[..6], 0, 64), Err(Refusal::Argument));
    }

    #[test]
    fn sealing_refuses_what_ours_refuses() {
        refuses_what_ours_refuses::<AesBody<OpenSsl>>(&KEY[..16], 65_507 - 50);
        refuses_what_ours_refuses::<ChaChaBody<OpenSsl>>(&KEY, 65_507 - 74);
    }

    /// A plaintext without room for both IDs and a header is malformed, behind its tag.
    #[test]
    fn a_short_plaintext_is_malformed() {
        let datagrams = Datagrams::<ChaChaBody<Plain<12>>>::new(32);
        for length in 56..56 + 11 {
            let (mut sealed, mut out) = (vec![0; length], [1; 128]);
            datagrams.seal_main(&KEY, SEPARATE, &[], &mut sealed);
            let mut sessions = Sessions::new(60);
            let peer = Peer::default();
            let mut open =
                |bytes: &[u8]| datagrams.open(&KEY, 0, peer, bytes, &mut sessions, &mut out);
            assert_eq!(open(&sealed).unwrap_err(), Refusal::Malformed);
            assert_eq!(open(&sealed[..39]).unwrap_err(), Refusal::Length);
            assert_eq!(open(&sealed[..40]).unwrap_err(), Refusal::NotAuthentic);
            assert_eq!(out[..length - 40], vec![0; length - 40]);
        }
    }
}
