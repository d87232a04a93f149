//! The plain rules for one datagram, written without the library: what its making
//! decides, and then what the book says.

use std::net::SocketAddr;

use relay::Method;

use crate::book::{Book, Entry};
use crate::datagram::Datagram;

/// The longest datagram that is looked at.
const LONGEST: usize = 65_507;

/// How far a timestamp may be from the clock.
pub const TIME: u64 = 30;

/// Numbers of refusals.
pub const LENGTH: u64 = 2;
pub const ROOM: u64 = 3;
pub const NOT_AUTHENTIC: u64 = 4;
pub const TYPE: u64 = 6;
pub const WRONG_TIME: u64 = 7;
pub const REPLAY: u64 = 8;
pub const FULL: u64 = 9;
pub const BINDING: u64 = 13;

/// A call that opens a datagram.
pub struct Call<'a> {
    pub datagram: &'a Datagram,
    pub clock: u64,
    pub peer: SocketAddr,
    /// The receiver's.
    pub method: Method,
    /// The receiver's own session ID, if it is a client.
    pub client_session: Option<u64>,
    /// The length of the output buffer.
    pub room: usize,
}

/// What the rules say to a call.
#[derive(Clone, Copy, Debug, PartialEq, Eq)]
pub enum Verdict {
    Accepted,
    /// With a number.
    Refused(u64),
}

impl Verdict {
    /// The number of a refusal.
    pub fn number(self) -> Option<u64> {
        match self {
            Self::Accepted => None,
            Self::Refused(number) => Some(number),
        }
    }
}

/// How many bytes of a datagram are no plaintext: a separate header of 16 bytes, or a
/// nonce of 24, and a tag of 16.
pub fn outside(method: Method) -> usize {
    match method {
        Method::Aes128Gcm | Method::Aes256Gcm => 16 + 16,
        Method::ChaCha20Poly1305 | Method::ChaCha12Poly1305 | Method::ChaCha8Poly1305 => 24 + 16,
    }
}

/// Applies the rules, in their order, and enters what is accepted in the book.
/// Nothing malformed is ever sealed here, so refusal 5 has no part in it.
pub fn judge(book: &mut Book, call: &Call) -> Verdict {
    if let Some(number) = refusal_before_the_book(call) {
        return Verdict::Refused(number);
    }
    let origin = &call.datagram.origin;
    match book.enter(origin.session_id, origin.packet_id, call.clock, call.peer) {
        Entry::Accepted => Verdict::Accepted,
        Entry::Replay => Verdict::Refused(REPLAY),
        Entry::Full => Verdict::Refused(FULL),
    }
}

fn refusal_before_the_book(call: &Call) -> Option<u64> {
    let origin = &call.datagram.origin;
    let length = call.datagram.bytes.len();
    let outside = outside(call.method);
    if !(outside..=LONGEST).contains(&length) {
        return Some(LENGTH);
    }
    if call.room < length - outside {
        return Some(ROOM);
    }
    if origin.is_damaged || origin.method != call.method {
        return Some(NOT_AUTHENTIC);
    }
    if origin.client_session.is_some() != call.client_session.is_some() {
        return Some(TYPE);
    }
    if origin.timestamp.abs_diff(call.clock) > TIME {
        return Some(WRONG_TIME);
    }
    if origin.client_session != call.client_session {
        return Some(BINDING);
    }
    None
}

#[cfg(test)]
mod tests {
    use super::*;
    use crate::datagram::Origin;
    use crate::payload::Message;
    use relay::Address;
    use std::rc::Rc;

    /// A client's datagram of 100 bytes, sealed at 1,000.
    fn datagram() -> Datagram {
        Datagram {
            bytes: vec![0; 100],
            origin: Origin {
                client: 0,
                method: Method::Aes128Gcm,
                session_id: 7,
                client_session: None,
                packet_id: 0,
                timestamp: 1_000,
                padding: 0,
                target: Rc::new(Address::name(b"a", 80).unwrap()),
                message: Message {
                    series: 0,
                    number: 0,
                },
                is_damaged: false,
            },
        }
    }

    fn call(datagram: &Datagram) -> Call<'_> {
        Call {
            datagram,
            clock: 1_000,
            peer: SocketAddr::from(([192, 0, 2, 1], 1)),
            method: Method::Aes128Gcm,
            client_session: None,
            room: 100,
        }
    }

    /// For the client of session 9.
    fn for_client(datagram: &Datagram) -> Call<'_> {
        Call {
            client_session: Some(9),
            ..call(datagram)
        }
    }

    fn short(datagram: &Datagram) -> Call<'_> {
        Call {
            room: 67,
            ..call(datagram)
        }
    }

    fn verdict(call: &Call) -> Verdict {
        judge(&mut Book::new(60), call)
    }

    #[test]
    fn a_good_datagram_is_accepted_once() {
        let datagram = datagram();
        let mut book = Book::new(60);
        assert_eq!(judge(&mut book, &call(&datagram)), Verdict::Accepted);
        let again = judge(&mut book, &call(&datagram));
        assert_eq!(again, Verdict::Refused(REPLAY));
    }

    #[test]
    fn times_30_away_are_good() {
        for (timestamp, expected) in [
            (970, Verdict::Accepted),
            (1_030, Verdict::Accepted),
            (969, Verdict::Refused(WRONG_TIME)),
            (1_031, Verdict::Refused(WRONG_TIME)),
            (u64::MAX, Verdict::Refused(WRONG_TIME)),
        ] {
            let mut datagram = datagram();
            datagram.origin.timestamp = timestamp;
            assert_eq!(verdict(&call(&datagram)), expected);
        }
    }

    /// Faults are added from the last in the order to the first; each hides those
    /// that were added before.
    #[test]
    fn the_first_refusal_in_the_order_is_given() {
        let mut faulty = datagram();
        faulty.origin.client_session = Some(8);
        assert_eq!(verdict(&for_client(&faulty)), Verdict::Refused(BINDING));
        faulty.origin.timestamp = 0;
        assert_eq!(verdict(&for_client(&faulty)), Verdict::Refused(WRONG_TIME));
        assert_eq!(verdict(&call(&faulty)), Verdict::Refused(TYPE));
        faulty.origin.method = Method::ChaCha8Poly1305;
        assert_eq!(verdict(&call(&faulty)), Verdict::Refused(NOT_AUTHENTIC));
        assert_eq!(verdict(&short(&faulty)), Verdict::Refused(ROOM));
        for length in [0, 31, 65_508] {
            faulty.bytes = vec![0; length];
            assert_eq!(verdict(&short(&faulty)), Verdict::Refused(LENGTH));
        }
    }

    #[test]
    fn a_nonce_is_longer_than_a_separate_header() {
        let mut datagram = datagram();
        for (method, shortest) in [(Method::Aes256Gcm, 32), (Method::ChaCha12Poly1305, 40)] {
            datagram.origin.method = method;
            for (length, refused) in [(shortest - 1, Some(LENGTH)), (shortest, None)] {
                datagram.bytes = vec![0; length];
                let call = Call {
                    method,
                    ..call(&datagram)
                };
                assert_eq!(verdict(&call).number(), refused);
            }
        }
    }

    #[test]
    fn damage_is_not_authentic() {
        let mut datagram = datagram();
        datagram.origin.is_damaged = true;
        let expected = Verdict::Refused(NOT_AUTHENTIC);
        assert_eq!(verdict(&call(&datagram)), expected);
    }
}
