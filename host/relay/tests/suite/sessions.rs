//! What a table remembers.

use std::net::SocketAddr;

use relay::{Invalid, Method, Peer, Refusal, SealSession, Session, Table};

use crate::common::*;

const METHOD: Method = Method::Aes128Gcm;

/// The words of a record, and the place of its count of repeats.
const RECORD: usize = 13;
const REPEATS: usize = 12;

/// Accepts packet IDs of one session, all at one clock.
fn table_with(packet_ids: &[u64]) -> Table {
    let mut table = Table::new(60).unwrap();
    for &packet_id in packet_ids {
        let datagram = sealed(METHOD, CLIENT_ID, packet_id, CLOCK);
        open(&mut table, METHOD, CLOCK, &datagram).unwrap();
    }
    table
}

fn only_session(table: &Table, clock: u64) -> Session {
    let sessions: Vec<Session> = table.sessions(clock).collect();
    assert_eq!(sessions.len(), 1);
    sessions[0].clone()
}

#[test]
fn a_new_table_has_no_sessions() {
    for (asked, kept) in [(0, 300), (60, 60), (61, 61), (3_600, 3_600)] {
        let table = Table::new(asked).unwrap();
        assert_eq!(table.retention(), kept);
        assert_eq!(table.sessions(0).count(), 0);
        assert!(table.words()[1..].iter().all(|&word| word == 0));
    }
    for retention in [1, 59, 3_601, u64::MAX] {
        let invalid = Invalid::Retention { seconds: retention };
        assert_eq!(Table::new(retention).unwrap_err(), invalid);
    }
}

#[test]
fn a_session_shows_what_was_accepted() {
    let packet_ids = [300, 299, 45, 310, 302];
    let session = only_session(&table_with(&packet_ids), CLOCK);
    assert_eq!(session.id, CLIENT_ID);
    assert_eq!(session.highest_packet, 310);
    assert_eq!(session.last_time, CLOCK);
    assert_eq!(session.peer, peer());
    // 45 has left the window.
    assert_eq!(session.marked_in_window(), 4);
    assert_eq!((session.accepted, session.repeats), (5, 0));
    for packet_id in [0, 45, 54, 55, 299, 300, 301, 302, 309, 310, 311, u64::MAX] {
        let marked = [299, 300, 302, 310].contains(&packet_id);
        assert_eq!(session.is_marked(packet_id), marked, "{packet_id}");
        let fresh = packet_id >= 55 && !marked;
        assert_eq!(session.is_fresh(packet_id), fresh, "{packet_id}");
    }
}

#[test]
fn a_table_shows_its_sessions() {
    let mut table = table_with(&[300, 299, 45, 310, 302]);
    let (clock, v6) = (CLOCK + 7, "[2001:db8::7]:9".parse::<SocketAddr>().unwrap());
    let datagram = sealed(METHOD, 0xab, 2, clock);
    let opened = table.open_server(&key(METHOD), clock, Peer::from(v6), &datagram, &mut [0; 64]);
    opened.unwrap();
    let first =
        "0102030405060708 from 192.0.2.1:4000, last at 1000, highest packet 310, 4 of 256 marked, 5 accepted, 0 repeats";
    let second =
        "00000000000000ab from [2001:db8::7]:9, last at 1007, highest packet 2, 1 of 256 marked, 1 accepted, 0 repeats";
    for (clock, alive) in [(CLOCK + 60, &[first, second][..]), (CLOCK + 61, &[second])] {
        let text = table.display(clock).to_string();
        let lines: Vec<&str> = text.lines().collect();
        let count = alive.len();
        let head = format!("{count} of 64 sessions alive at {clock}, retention 60 seconds");
        assert_eq!(lines[0], head);
        assert_eq!(lines[1..], *alive);
    }
}

/// What `is_fresh` says is what the opener does.
#[test]
fn freshness_is_the_openers() {
    let table = table_with(&[300, 299, 45, 310, 302]);
    let session = only_session(&table, CLOCK);
    for packet_id in 0..320 {
        let mut copy = Table::from_words(table.words());
        let datagram = sealed(METHOD, CLIENT_ID, packet_id, CLOCK);
        let opened = open(&mut copy, METHOD, CLOCK, &datagram);
        if session.is_fresh(packet_id) {
            assert!(opened.is_ok(), "{packet_id}");
            assert!(only_session(&copy, CLOCK).is_marked(packet_id));
        } else {
            assert_eq!(opened, Err(Refusal::Replay), "{packet_id}");
            let mut words = *table.words();
            words[1 + REPEATS] += 1;
            assert_eq!(copy.words(), &words, "{packet_id}");
        }
    }
}

#[test]
fn a_session_follows_its_client_to_another_address() {
    let mut table = table_with(&[0]);
    let elsewhere = Peer::from("[2001:db8::7]:9".parse::<SocketAddr>().unwrap());
    let datagram = sealed(METHOD, CLIENT_ID, 1, CLOCK);
    let mut out = [0; 64];
    table
        .open_server(&key(METHOD), CLOCK, elsewhere, &datagram, &mut out)
        .unwrap();
    assert_eq!(table.peer_of(CLIENT_ID, CLOCK), Some(elsewhere));
    // A replay from the old address does not move it back.
    let replayed = table.open_server(&key(METHOD), CLOCK, peer(), &datagram, &mut out);
    assert_eq!(replayed, Err(Refusal::Replay));
    assert_eq!(table.peer_of(CLIENT_ID, CLOCK), Some(elsewhere));
}

#[test]
fn the_65th_session_waits_until_one_is_forgotten() {
    let mut table = Table::new(60).unwrap();
    for id in 0..64 {
        // Session 0 is the first to fall silent.
        let clock = CLOCK + u64::from(id != 0);
        open(&mut table, METHOD, clock, &sealed(METHOD, id, 9, clock)).unwrap();
    }
    let clock = CLOCK + 60;
    assert_eq!(table.sessions(clock).count(), 64);
    let newcomer = sealed(METHOD, 64, 0, clock);
    let words = *table.words();
    let refused = open(&mut table, METHOD, clock, &newcomer);
    assert_eq!(refused, Err(Refusal::Full));
    assert_eq!(table.words(), &words);
    // A known session is never refused so.
    open(&mut table, METHOD, clock, &sealed(METHOD, 63, 10, clock)).unwrap();

    let clock = CLOCK + 61;
    assert_eq!(table.sessions(clock).count(), 63);
    open(&mut table, METHOD, clock, &newcomer).unwrap();
    assert_eq!(table.peer_of(0, clock), None);
    assert_eq!(table.peer_of(64, clock), Some(peer()));
    assert_eq!(table.sessions(clock).count(), 64);
}

#[test]
fn a_table_goes_on_after_it_was_stored() {
    let table = table_with(&[0, 1, 2]);
    let mut restored = Table::from_words(table.words());
    let replayed = sealed(METHOD, CLIENT_ID, 1, CLOCK);
    assert_eq!(
        open(&mut restored, METHOD, CLOCK, &replayed),
        Err(Refusal::Replay)
    );
    let next = sealed(METHOD, CLIENT_ID, 3, CLOCK);
    assert!(open(&mut restored, METHOD, CLOCK, &next).is_ok());
}

/// Repeats and too late ones count alike, each in its own session; a session that begins
/// again counts anew.
#[test]
fn a_session_counts_its_datagrams_and_its_repeats() {
    let mut table = table_with(&[300, 299, 310]);
    let counts = |table: &Table, id, clock| {
        let session = table.sessions(clock).find(|session| session.id == id);
        session.map(|session| (session.accepted, session.repeats))
    };
    let other = sealed(METHOD, 9, 0, CLOCK);
    open(&mut table, METHOD, CLOCK, &other).unwrap();
    // Marked, the highest, below the window; then at a later clock, which keeps nothing alive.
    for (count, (packet_id, clock)) in [(299, 0), (310, 0), (54, 0), (310, 20)].iter().enumerate() {
        let datagram = sealed(METHOD, CLIENT_ID, *packet_id, CLOCK + clock);
        let opened = open(&mut table, METHOD, CLOCK + clock, &datagram);
        assert_eq!(opened, Err(Refusal::Replay));
        let repeats = count as u64 + 1;
        assert_eq!(counts(&table, CLIENT_ID, CLOCK), Some((3, repeats)));
        assert_eq!(counts(&table, 9, CLOCK), Some((1, 0)));
    }
    // A forged one and one of another time count nowhere.
    let mut forged = sealed(METHOD, CLIENT_ID, 310, CLOCK);
    *forged.last_mut().unwrap() ^= 1;
    let stale = sealed(METHOD, CLIENT_ID, 310, CLOCK - 31);
    for datagram in [forged, stale] {
        assert!(open(&mut table, METHOD, CLOCK, &datagram).is_err());
        assert_eq!(counts(&table, CLIENT_ID, CLOCK), Some((3, 4)));
    }
    assert_eq!(only_session_ids(&table, CLOCK + 60), [CLIENT_ID, 9]);
    assert_eq!(only_session_ids(&table, CLOCK + 61), []);
    let again = sealed(METHOD, CLIENT_ID, 5, CLOCK + 61);
    open(&mut table, METHOD, CLOCK + 61, &again).unwrap();
    assert_eq!(counts(&table, CLIENT_ID, CLOCK + 61), Some((1, 0)));
}

fn only_session_ids(table: &Table, clock: u64) -> Vec<u64> {
    table.sessions(clock).map(|session| session.id).collect()
}

#[test]
fn counts_stop_at_the_largest_number() {
    let mut words = [0; Table::WORDS];
    words[0] = 60;
    let most = u64::MAX;
    words[1..1 + RECORD].copy_from_slice(&[
        1,
        7,
        10,
        CLOCK,
        1,
        0,
        0,
        0,
        3,
        3,
        3,
        most - 1,
        most - 1,
    ]);
    let mut table = Table::from_words(&words);
    for (packet_id, refused) in [(10, true), (11, false), (11, true), (12, false)] {
        let datagram = sealed(METHOD, 7, packet_id, CLOCK);
        let opened = open(&mut table, METHOD, CLOCK, &datagram);
        assert_eq!(opened.err(), refused.then_some(Refusal::Replay));
    }
    assert_eq!(table.words()[1 + REPEATS - 1..][..2], [most, most]);
}

/// The IDs of all sessions alive are refused, those of forgotten ones are free.
#[test]
fn a_reply_session_has_no_clients_id() {
    let mut table = Table::new(60).unwrap();
    for id in 0..64 {
        open(&mut table, METHOD, CLOCK, &sealed(METHOD, id, 0, CLOCK)).unwrap();
    }
    let words = *table.words();
    let begun = |id, client, clock| SealSession::server(id, client, clock, &table);
    for id in [0, 1, 62, 63] {
        let refused = Invalid::SessionId { id };
        assert_eq!(begun(id, 7, CLOCK + 60).unwrap_err(), refused);
        // At a clock that went back it is alive, too; past the retention it is not.
        assert_eq!(begun(id, 7, 0).unwrap_err(), refused);
        assert_eq!(begun(id, 7, CLOCK + 61).unwrap().id(), id);
    }
    // Its own client's, whether that is alive, forgotten or was never there.
    for (id, clock) in [(7, CLOCK), (7, CLOCK + 61), (64, CLOCK)] {
        assert_eq!(begun(id, id, clock).unwrap_err(), Invalid::SessionId { id });
    }
    assert_eq!(begun(64, 99, CLOCK).unwrap().client_id(), Some(99));
    assert_eq!(table.words(), &words);
    // A client that comes later with such an ID is accepted.
    let clock = CLOCK + 61;
    open(&mut table, METHOD, clock, &sealed(METHOD, 64, 0, clock)).unwrap();
}

/// Not the lowest record of an ID alone: every one that is alive.
#[test]
fn a_reply_session_has_no_id_of_a_record_behind_dead_ones() {
    let mut words = [0; Table::WORDS];
    words[0] = 60;
    for (place, last_time) in [(3, CLOCK - 61), (63, CLOCK - 60)] {
        let record = [9, 5, 0, last_time, 0, 0, 0, 0, 0, 0, 0, 1, 0];
        words[1 + place * RECORD..][..RECORD].copy_from_slice(&record);
    }
    let table = Table::from_words(&words);
    let begun = |clock| SealSession::server(5, 6, clock, &table);
    assert_eq!(begun(CLOCK).unwrap_err(), Invalid::SessionId { id: 5 });
    assert!(begun(CLOCK + 1).is_ok());
    words[1 + 63 * RECORD] = 0;
    let table = Table::from_words(&words);
    assert!(SealSession::server(5, 6, CLOCK, &table).is_ok());
}

/// Of two alive records with one ID the first counts, here as in the opener.
#[test]
fn the_first_alive_record_of_an_id_counts() {
    let mut words = [0; Table::WORDS];
    words[0] = 60;
    let port = 0xabcd_0000_0000_0050;
    let records = [
        // Not in use; dead; alive, though its word in use is not 1; alive.
        [0, 7, 10, CLOCK, 1, 0, 0, 0, 1, 1, 1, 1, 1],
        [1, 7, 20, CLOCK - 61, 1, 0, 0, 0, 2, 2, 2, 2, 2],
        [9, 7, 30, CLOCK - 60, 1, 0, 0, 0, 3, 3, port, 3, 3],
        [1, 7, 40, CLOCK, 1, 0, 0, 0, 4, 4, 4, 4, 4],
    ];
    words[1..1 + 4 * RECORD].copy_from_slice(&records.concat());
    let mut table = Table::from_words(&words);
    let session = only_session(&table, CLOCK);
    assert_eq!(session.highest_packet, 30);
    assert_eq!(table.session(7, CLOCK).as_ref(), Some(&session));
    assert_eq!(table.session(7, CLOCK + 1).unwrap().highest_packet, 40);
    assert_eq!(table.session(7, CLOCK + 61), None);
    assert_eq!(table.session(8, CLOCK), None);
    // A port is the low 16 bits of its word.
    assert_eq!(session.peer.port, 0x50);
    let datagram = sealed(METHOD, 7, 30, CLOCK);
    let opened = open(&mut table, METHOD, CLOCK, &datagram);
    assert_eq!(opened, Err(Refusal::Replay));
    // It counts there, and no other word is written, the port's high bits neither.
    words[1 + 2 * RECORD + REPEATS] += 1;
    assert_eq!(table.words(), &words);
    let datagram = sealed(METHOD, 7, 31, CLOCK);
    assert!(open(&mut table, METHOD, CLOCK, &datagram).is_ok());
    assert_eq!(only_session(&table, CLOCK).highest_packet, 31);
    // The record stays in use by its own word, and is written with a whole port.
    let record = &table.words()[1 + 2 * RECORD..][..RECORD];
    assert_eq!(record[0], 9);
    assert_eq!(record[10..], [u64::from(peer().port), 4, 4]);
}

#[test]
fn a_last_time_to_come_keeps_a_session_alive() {
    let mut words = [0; Table::WORDS];
    words[0] = 60;
    words[1..1 + RECORD].copy_from_slice(&[1, 7, 10, u64::MAX, 1, 0, 0, 0, 3, 3, 3, 1, 0]);
    let table = Table::from_words(&words);
    for clock in [0, CLOCK, u64::MAX] {
        assert_eq!(table.sessions(clock).count(), 1);
    }
}
