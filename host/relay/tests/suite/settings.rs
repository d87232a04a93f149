//! Settings files, written and read.

use relay::settings::{read, write, write_into, Method, Setting, MAX_FILE, MIN_FILE};
use relay::{sip004, Address, Refusal};

use crate::common::{addresses, short_address, FILL};

/// Bytes of a file beside the bodies: with so many settings.
fn besides(count: usize) -> usize {
    MIN_FILE + 6 * count
}

/// Every method of both editions.
fn methods() -> impl Iterator<Item = Method> {
    let newer = relay::Method::ALL.into_iter().map(Method::from);
    newer.chain(sip004::Method::ALL.into_iter().map(Method::from))
}

/// A file of edition 8 whose only setting has number 5 and no body.
const NEWER: &[u8] =
    b"\x00\x08\x00\x01\x00\x05\x00\x0a\x00\x00\x0d\xf5\x87\x26\xf4\x86\x5a\xe5\xb8\xc4\
      \x1b\xdc\xf0\xd2\x78\x22\x9d\x5b\x29\x5b\x8b\xbb\xcd\xb9\x67\x16\x13\x77\x6e\x98\
      \xab\x80";

/// A file of edition 8 whose only setting is method 6, with its hash.
const UNLAWFUL: &[u8] =
    b"\x00\x08\x00\x01\x00\x01\x00\x0a\x00\x01\x06\x94\x2b\xc3\x1c\x31\xe5\xdd\xcb\x33\
      \x9a\x06\xfd\x04\x3b\x0a\xe7\x77\x80\xe1\x3b\x1e\x8f\x47\x3c\xb9\x47\xa3\xc9\xef\
      \x8a\xbe\x8f";

#[test]
fn a_file_is_read_as_it_was_written() {
    for address in addresses() {
        for method in methods() {
            let settings = [
                Setting::Method(method),
                Setting::Retention(3_600),
                Setting::Limit(65_507),
                Setting::Target(&address),
                Setting::Other {
                    number: 128,
                    body: b"later",
                },
            ];
            let file = write(65_535, &settings).unwrap();
            assert_eq!(
                file.len(),
                besides(5) + 1 + 2 + 4 + address.as_bytes().len() + 5
            );
            let read = read(&file).unwrap();
            assert_eq!(read.edition, 65_535);
            assert_eq!(read.method, Some(method));
            assert_eq!((read.retention, read.limit), (Some(3_600), Some(65_507)));
            assert_eq!(read.target.as_ref(), Some(&address));
        }
    }
}

#[test]
fn what_is_not_set_is_none() {
    let file = write(0, &[]).unwrap();
    assert_eq!(file.len(), MIN_FILE);
    let none = read(&file).unwrap();
    assert_eq!((none.edition, none.method, none.retention), (0, None, None));
    assert_eq!((none.limit, none.target), (None, None));
    let zeros = read(&write(0, &[Setting::Retention(0), Setting::Limit(0)]).unwrap()).unwrap();
    assert_eq!((zeros.retention, zeros.limit), (Some(0), Some(0)));
    assert_eq!((zeros.method, zeros.target), (None, None));
}

#[test]
fn unlawful_settings_are_not_written() {
    let target = short_address();
    let other = |number, body| Setting::Other { number, body };
    for settings in [
        &[Setting::Retention(59)][..],
        &[Setting::Retention(3_601)],
        &[Setting::Limit(65_508)],
        &[Setting::Limit(usize::MAX)],
        &[other(0, b"")],
        &[other(5, b"")],
        &[other(127, b"")],
        &[other(1, b"\x06")],
        &[other(4, b"\x03\x00\x00\x50")],
        &[other(200, b""), other(200, b"")],
        &[Setting::Target(&target), Setting::Limit(9)],
    ] {
        let mut out = [FILL; 200];
        let refused = write_into(1, settings, &mut out);
        assert_eq!(refused, Err(Refusal::Argument), "{settings:?}");
        assert_eq!(out, [FILL; 200]);
    }
    // As bytes, but lawful.
    assert_eq!(
        write(1, &[other(1, b"\x05")]),
        write(1, &[Setting::Method(relay::Method::ChaCha8Poly1305.into())])
    );
}

#[test]
fn files_up_to_65535_bytes_are_written_and_read() {
    let body = vec![7; MAX_FILE - besides(1) + 1];
    let settings = |length| {
        [Setting::Other {
            number: 65_535,
            body: &body[..length],
        }]
    };
    let longest = write(1, &settings(body.len() - 1)).unwrap();
    assert_eq!(longest.len(), MAX_FILE);
    assert_eq!(read(&longest).unwrap().edition, 1);
    assert_eq!(write(1, &settings(body.len())), Err(Refusal::Length));
    assert_eq!(read(&[&longest[..], b"x"].concat()), Err(Refusal::Length));
    assert_eq!(read(&longest[..MIN_FILE - 1]), Err(Refusal::Length));
}

#[test]
fn the_room_is_exact_and_a_refusal_writes_nothing() {
    let settings = [Setting::Retention(60)];
    let file = write(3, &settings).unwrap();
    let mut out = vec![FILL; file.len() + 3];
    let short = &mut out[..file.len() - 1];
    assert_eq!(write_into(3, &settings, short), Err(Refusal::Room));
    assert!(out.iter().all(|&byte| byte == FILL));
    assert_eq!(write_into(3, &settings, &mut out), Ok(file.len()));
    assert_eq!(out, [&file[..], &[FILL; 3]].concat());
}

#[test]
fn every_damaged_byte_is_told() {
    let target = Address::name(b"example.com", 443).unwrap();
    let file = write(1, &[Setting::Limit(1_500), Setting::Target(&target)]).unwrap();
    for place in 0..file.len() {
        let mut damaged = file.clone();
        damaged[place] ^= 0x80;
        assert_eq!(read(&damaged), Err(Refusal::NotAuthentic), "{place}");
    }
}

#[test]
fn an_unknown_setting_is_refused_with_its_number() {
    assert_eq!(read(NEWER), Err(Refusal::UnknownSetting { number: 5 }));
    assert_eq!(read(UNLAWFUL), Err(Refusal::Malformed));
}

#[test]
fn methods_have_the_numbers_of_their_editions() {
    let numbers: Vec<u64> = methods().map(Method::number).collect();
    assert_eq!(numbers, [1, 2, 3, 4, 5, 11, 12, 13]);
    for method in methods() {
        assert_eq!(Method::from_number(method.number()), Some(method));
    }
    for number in [0, 6, 10, 14, 257, u64::MAX] {
        assert_eq!(Method::from_number(number), None);
    }
}
