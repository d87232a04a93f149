//! What a box records in a morning.

use relay::{Address, Key, Method, Peer, SealSession, Table};

use crate::common::Entry;

pub const METHOD: &str = "2022-blake3-aes-128-gcm";
pub const KEY: [u8; 16] = [0x4b; 16];

pub const READINGS: [&[u8]; 4] = [b"reading 1", b"reading 2", b"reading 3", b"reading 4"];

/// Two clients take turns and send twice each, the second time three seconds later, and a reply
/// goes to the second client.
pub fn morning(start: u64, clients: [u64; 2], readings: [&[u8]; 4]) -> Vec<Entry> {
    let key = Key::new(Method::Aes128Gcm, &KEY).unwrap();
    let target = Address::name(b"bench.example", 4_000).unwrap();
    let mut table = Table::new(60).unwrap();
    let (mut sealed, mut plain) = ([0; 256], [0; 256]);
    let peer = Peer {
        first: 0,
        second: 1,
        port: 1,
    };
    let mut sessions = clients.map(SealSession::client);
    let mut entries = Vec::new();
    for (place, reading) in readings.into_iter().enumerate() {
        let clock = start + [0, 0, 3, 3][place];
        let length = sessions[place % 2].seal(&key, None, clock, &target, 0, reading, &mut sealed);
        let datagram = sealed[..length.unwrap()].to_vec();
        table
            .open_server(&key, clock, peer, &datagram, &mut plain)
            .unwrap();
        entries.push((0, clock, datagram));
    }
    let mut reply = SealSession::server(0xcc, clients[1], start + 3, &table).unwrap();
    let length = reply.seal(&key, None, start + 3, &target, 0, b"", &mut sealed);
    entries.push((1, start + 3, sealed[..length.unwrap()].to_vec()));
    entries
}
