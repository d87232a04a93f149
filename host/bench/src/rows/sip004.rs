//! Whole datagrams of the 2017 edition, sealed and opened.

use relay::sip004;

use super::datagrams::SIZES;
use super::{ours_and, text, Bare, Contestant, Row, KEY, SALT};
use crate::ciphers::{Ciphers, TAG_LENGTH};
use crate::kinds::{Call, Kind, Method, SIP004_METHODS};
use crate::sip004::Datagrams;

pub fn rows() -> Vec<Row> {
    let mut rows = Vec::new();
    for method in SIP004_METHODS {
        rows.extend(SIZES.map(|size| seal(method, size)));
        rows.extend(SIZES.map(|size| open(method, size)));
    }
    rows
}

/// The input is the payload.
fn seal(method: Method, size: usize) -> Row {
    let (key, salt) = (&KEY[..method.key_length], &SALT[..method.key_length]);
    let ours = ours(method);
    Row {
        kind: Kind::Sip004(method, Call::Seal),
        size,
        input: payload(method, size),
        buffer: size,
        special: None,
        contestants: ours_and(
            move |payload, out| {
                let length = sip004::seal_datagram(&ours, salt, payload, out);
                assert_eq!(length, Ok(out.len()), "datagram not sealed");
            },
            of_aes!(seal_with, Bare, (key, salt)),
        ),
    }
}

fn seal_with<C: Ciphers>(key: &'static [u8], salt: &'static [u8]) -> Contestant {
    let datagrams = Datagrams::<C>::new(key.len());
    Contestant::new(C::LIBRARY, move |payload, out| {
        let length = datagrams.seal(key, salt, payload, out);
        assert_eq!(length, Ok(out.len()), "datagram not sealed");
    })
}

fn open(method: Method, size: usize) -> Row {
    let key = &KEY[..method.key_length];
    let (ours, due) = (ours(method), payload(method, size).len());
    Row {
        kind: Kind::Sip004(method, Call::Open),
        size,
        input: sealed(method, size),
        buffer: size,
        special: None,
        contestants: ours_and(
            move |datagram, out| {
                let length = sip004::open_datagram(&ours, datagram, out);
                assert_eq!(length, Ok(due), "sealed datagram refused");
            },
            of_aes!(open_with, Bare, (key, due)),
        ),
    }
}

fn open_with<C: Ciphers>(key: &'static [u8], due: usize) -> Contestant {
    let datagrams = Datagrams::<C>::new(key.len());
    Contestant::new(C::LIBRARY, move |datagram, out| {
        let length = datagrams.open(key, datagram, out);
        assert_eq!(length, Ok(due), "sealed datagram refused");
    })
}

/// What a datagram of a size has room for.
fn payload(method: Method, size: usize) -> Vec<u8> {
    text(size - method.key_length - TAG_LENGTH)
}

fn sealed(method: Method, size: usize) -> Vec<u8> {
    let salt = &SALT[..method.key_length];
    let mut datagram = vec![0; size];
    let length = sip004::seal_datagram(&ours(method), salt, &payload(method, size), &mut datagram);
    assert_eq!(length, Ok(size), "another length than was asked for");
    datagram
}

/// The key, as ours takes it.
fn ours(method: Method) -> sip004::Key {
    let number = sip004::Method::from_number(method.number).expect("the library has the method");
    sip004::Key::new(number, &KEY[..method.key_length]).expect("a key of the method's length")
}
