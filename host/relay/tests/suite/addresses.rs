//! Addresses and peers.

use std::net::SocketAddr;

use relay::{Address, Invalid, Peer};

use crate::common::addresses;

#[test]
fn bytes_are_those_of_rfc_1928() {
    let v4 = Address::from(SocketAddr::from(([192, 0, 2, 1], 0x0102)));
    assert_eq!(v4.as_bytes(), [1, 192, 0, 2, 1, 1, 2]);
    let name = Address::name(b"a", 80).unwrap();
    assert_eq!(name.as_bytes(), [3, 1, 0x61, 0, 80]);
    let v6: SocketAddr = "[102:304::ff]:1".parse().unwrap();
    let bytes = [4, 1, 2, 3, 4, 0, 0, 0, 0, 0, 0, 0, 0, 0, 0, 0, 0xff, 0, 1];
    assert_eq!(Address::from(v6).as_bytes(), bytes);
}

#[test]
fn bytes_are_read_back() {
    for address in addresses() {
        assert_eq!(Address::from_bytes(address.as_bytes()), Ok(address));
    }
}

#[test]
fn nothing_may_be_missing_or_stand_behind() {
    for address in addresses() {
        let mut bytes = address.as_bytes().to_vec();
        let whole = bytes.len();
        // Without kind and length the shortest address is wanted.
        let told_by = if bytes[0] == 3 { 2 } else { 1 };
        for length in 0..whole {
            let cut = Address::from_bytes(&bytes[..length]);
            let wanted = if length < told_by { 5 } else { whole };
            assert_eq!(cut, Err(Invalid::AddressLength { wanted, length }));
        }
        bytes.push(0);
        let longer = Invalid::AddressLength {
            wanted: whole,
            length: whole + 1,
        };
        assert_eq!(Address::from_bytes(&bytes), Err(longer));
    }
}

#[test]
fn three_of_256_kinds_are_taken() {
    for kind in 0..=255 {
        // With lengths that fit the three kinds.
        let lawful = [7, 8, 19].into_iter().any(|length| {
            let mut bytes = vec![4; length];
            bytes[0] = kind;
            Address::from_bytes(&bytes).is_ok()
        });
        assert_eq!(lawful, [1, 3, 4].contains(&kind), "kind {kind}");
        let refused = Address::from_bytes(&[kind; 7]).err();
        assert_eq!(refused == Some(Invalid::AddressKind { kind }), !lawful);
    }
}

#[test]
fn names_have_1_to_255_bytes() {
    for length in [1, 255] {
        assert!(Address::name(&vec![b'n'; length], 1).is_ok());
    }
    for length in [0, 256, 65_537] {
        let name = vec![b'n'; length];
        assert_eq!(Address::name(&name, 1), Err(Invalid::NameLength { length }));
    }
    let empty = Invalid::NameLength { length: 0 };
    assert_eq!(Address::from_bytes(&[3, 0, 0, 80]), Err(empty));
}

#[test]
fn addresses_are_shown_as_people_write_them() {
    let shown: Vec<String> = addresses().iter().map(Address::to_string).collect();
    assert_eq!(
        shown[..7],
        [
            "0.0.0.0:0",
            "255.254.253.252:65535",
            "[2001:db8::1:2]:443",
            "[::ffff:192.0.2.1]:53",
            "a:80",
            "example.com:443",
            r"\x00\x00\x00\x00\x00\x00\x00:1",
        ]
    );
}

#[test]
fn peers_are_turned_back() {
    for text in [
        "192.0.2.1:1",
        "0.0.0.0:0",
        "[2001:db8::1:2]:443",
        "[::]:65535",
    ] {
        let address: SocketAddr = text.parse().unwrap();
        assert_eq!(SocketAddr::from(Peer::from(address)), address);
    }
    let mapped: SocketAddr = "[::ffff:192.0.2.1]:53".parse().unwrap();
    let v4: SocketAddr = "192.0.2.1:53".parse().unwrap();
    assert_eq!(SocketAddr::from(Peer::from(mapped)), v4);
}

#[test]
fn the_address_in_front_is_split_off() {
    for address in addresses() {
        let text = [address.as_bytes(), b"rest"].concat();
        let whole = address.as_bytes().len();
        for length in 0..whole {
            assert_eq!(Address::split(&text[..length]), Ok(None));
        }
        for length in whole..=text.len() {
            let behind = &text[whole..length];
            let split = Address::split(&text[..length]);
            assert_eq!(split, Ok(Some((address.clone(), behind))));
        }
    }
    for kind in (0..=255).filter(|kind| ![1, 3, 4].contains(kind)) {
        let refused = Err(Invalid::AddressKind { kind });
        assert_eq!(Address::split(&[kind]), refused);
        assert_eq!(Address::split(&[kind; 30]), refused);
    }
    let refused = Err(Invalid::NameLength { length: 0 });
    assert_eq!(Address::split(&[3, 0]), refused);
}

#[test]
fn an_address_is_a_socket_address_or_a_name() {
    for address in addresses() {
        match (address.socket_addr(), address.host_name()) {
            (Some(socket), None) => assert_eq!(Address::from(socket), address),
            (None, Some(name)) => assert_eq!(Address::name(name, address.port()), Ok(address)),
            both => panic!("{address} is {both:?}"),
        }
    }
}

#[test]
fn an_address_is_read_from_its_text() {
    for text in ["192.0.2.1:53", "[2001:db8::1]:53", "[::ffff:192.0.2.1]:0"] {
        let socket: SocketAddr = text.parse().unwrap();
        assert_eq!(text.parse(), Ok(Address::from(socket)));
    }
    for name in [
        "a",
        "example.com",
        "example.com.",
        "4a",
        "1.2.3.a",
        "a_b-c",
        "xn--bcher-kva.example",
    ] {
        let address = Address::name(name.as_bytes(), 65_535);
        let text = format!("{name}:65535");
        assert_eq!(text.parse(), address);
        assert_eq!(address.unwrap().to_string(), text);
    }
    let longest = "n".repeat(255);
    assert_eq!(
        format!("{longest}:1").parse(),
        Address::name(longest.as_bytes(), 1)
    );
    let refused = Err(Invalid::NameLength { length: 256 });
    assert_eq!(format!("{longest}n:1").parse::<Address>(), refused);
}

#[test]
fn other_texts_are_no_address() {
    for text in [
        "",
        ":",
        ":53",
        "a",
        "a:",
        "a:65536",
        "a:+53",
        "a:-1",
        "a: 53",
        " a:53",
        "a b:53",
        "a:53\n",
        "192.0.2.1",
        "192.0.2.256:53",
        "192.0.2:53",
        "192.0.2.1.:53",
        "7:53",
        ".:53",
        "a..:53",
        "2001:db8::1:53",
        "[2001:db8::1]",
        "[2001:db8::1]53",
        "[2001:db8::1:53",
        "[192.0.2.1]:53",
        "[fe80::1%1]:53",
        "[a]:53",
        "[]:53",
        "b\u{fc}cher:53",
        "a\0:53",
    ] {
        assert_eq!(
            text.parse::<Address>(),
            Err(Invalid::AddressText),
            "{text:?}"
        );
    }
}
