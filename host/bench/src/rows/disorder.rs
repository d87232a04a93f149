//! Datagrams in an order and with headers that a relay refuses: whether the plain
//! Rust around the other libraries does all of the work that ours does.

use super::datagrams::{new_sessions, new_table, ADDRESS, CLOCK, RECORD};
use super::{ours_and, Contestant, Row, KEY};
use crate::around::{AesBody, Body, ChaChaBody, Datagrams, Separate, FIXED_LENGTH};
use crate::kinds::{Call, Cipher, Kind, Method, METHODS};
use crate::openssl::OpenSsl;
use crate::ours;
use crate::plain::{Peer, Plain};
use crate::suites::Suite;

/// The length of each of the datagrams.
const SIZE: usize = 96;

/// Less than any method leaves behind the header.
const LONGEST_PADDING: u16 = 64;

/// A datagram to be opened: its numbers, the time and padding that it says, and
/// the clock at which it comes.
#[derive(Clone, Copy)]
struct Coming {
    separate: Separate,
    kind: u8,
    time: u64,
    padding: u16,
    address_kind: u8,
    clock: u64,
}

impl Coming {
    fn new(session: u64, packet: u64) -> Self {
        Self {
            separate: Separate { session, packet },
            kind: 0,
            time: CLOCK,
            padding: 0,
            address_kind: ADDRESS[0],
            clock: CLOCK,
        }
    }

    fn at(session: u64, packet: u64, clock: u64) -> Self {
        Self {
            time: clock,
            clock,
            ..Self::new(session, packet)
        }
    }

    fn sealed<B: Body>(self, datagrams: &Datagrams<B>, key: &[u8]) -> [u8; SIZE] {
        let mut main = [0; FIXED_LENGTH + ADDRESS.len()];
        main[0] = self.kind;
        main[1..9].copy_from_slice(&self.time.to_be_bytes());
        main[9..FIXED_LENGTH].copy_from_slice(&self.padding.to_be_bytes());
        main[FIXED_LENGTH..].copy_from_slice(&ADDRESS);
        main[FIXED_LENGTH] = self.address_kind;
        let mut datagram = [0; SIZE];
        datagrams.seal_main(key, self.separate, &main, &mut datagram);
        datagram
    }
}

/// Windows, forgetting, faults of headers, and more sessions than have room.
fn coming() -> Vec<Coming> {
    let packets = [300, 300, 44, 45, 45, 555, 300, 556, 300, 301, 301, 9_000];
    let mut list: Vec<_> = packets.map(|packet| Coming::new(7, packet)).into();
    let clocks = [1_060, 1_121, 1_121, 1_000];
    list.extend(clocks.map(|clock| Coming::at(8, 5, clock)));
    let sound = Coming::new(9, 0);
    for time in [CLOCK - 31, CLOCK + 31, CLOCK - 30, CLOCK + 30] {
        list.push(Coming { time, ..sound });
    }
    list.push(Coming { kind: 1, ..sound });
    for address_kind in [0, 2, 3, 4, 5] {
        list.push(Coming {
            address_kind,
            ..Coming::new(10, address_kind.into())
        });
    }
    for padding in [1, LONGEST_PADDING, u16::MAX] {
        list.push(Coming { padding, ..sound });
    }
    list.extend((100..170).map(|session| Coming::new(session, 0)));
    list
}

pub fn rows() -> Vec<Row> {
    METHODS.map(row).into()
}

/// How many counts the first record has.
const COUNTS: usize = 2;

/// The input is all datagrams, the buffer has a byte for each answer and for the
/// counts of the first record.
fn row(method: Method) -> Row {
    let key = &KEY[..method.key_length];
    let list = coming();
    let clocks = || -> Vec<u64> { list.iter().map(|coming| coming.clock).collect() };
    let our_clocks = clocks();
    let input = match method.cipher {
        Cipher::AesGcm => sealed::<AesBody<OpenSsl>>(&list, key),
        Cipher::ChaCha { rounds: 20 } => sealed::<ChaChaBody<OpenSsl>>(&list, key),
        Cipher::ChaCha { rounds: 12 } => sealed::<ChaChaBody<Plain<12>>>(&list, key),
        Cipher::ChaCha { .. } => sealed::<ChaChaBody<Plain<8>>>(&list, key),
    };
    Row {
        kind: Kind::Datagram(method, Call::Open),
        size: SIZE,
        input,
        buffer: list.len() + COUNTS,
        special: Some("in disorder"),
        contestants: contestants!(
            method.cipher,
            move |input, answers| {
                let mut table = new_table();
                each(input, &our_clocks, answers, |clock, datagram, out| {
                    ours::datagram_open(method.number, key, clock, datagram, &mut table, out)
                });
                note_counts(answers, [table[RECORD - 1], table[RECORD]]);
            },
            open_with(key, clocks())
        ),
    }
}

/// All of the list, one behind the other.
fn sealed<B: Body>(list: &[Coming], key: &[u8]) -> Vec<u8> {
    let datagrams = Datagrams::<B>::new(key.len());
    let sealed = list.iter().map(|coming| coming.sealed(&datagrams, key));
    sealed.flatten().collect()
}

fn open_with<S: Suite>(key: &'static [u8], clocks: Vec<u64>) -> Contestant {
    let datagrams = Datagrams::<S::Body>::new(key.len());
    Contestant::new(S::LIBRARY, move |input, answers| {
        let mut sessions = new_sessions();
        each(input, &clocks, answers, |clock, datagram, out| {
            let peer = Peer::default();
            let header = datagrams.open(key, clock, peer, datagram, &mut sessions, out);
            header.map_or_else(|refusal| refusal as u64, |_| 0)
        });
        note_counts(answers, sessions.first_counts());
    })
}

/// Notes behind the answers what the first record counted.
fn note_counts(answers: &mut [u8], counts: [u64; COUNTS]) {
    let place = answers.len() - COUNTS;
    answers[place..].copy_from_slice(&counts.map(|count| count as u8));
}

/// Opens one datagram after the other, and notes the answers.
fn each(
    input: &[u8],
    clocks: &[u64],
    answers: &mut [u8],
    mut open: impl FnMut(u64, &[u8], &mut [u8]) -> u64,
) {
    for ((datagram, clock), answer) in input.chunks_exact(SIZE).zip(clocks).zip(answers) {
        *answer = open(*clock, datagram, &mut [0; SIZE]) as u8;
    }
}

#[cfg(test)]
mod tests {
    use std::collections::BTreeSet;

    use super::{rows, COUNTS};
    use crate::rows::Library;

    #[test]
    fn the_list_meets_every_refusal_of_an_authentic_datagram() {
        for row in rows() {
            let ours = row.contestant(Library::Ours).expect("ours is there");
            let mut answers = vec![0; row.buffer];
            (row.contestants[ours].work)(&row.input, &mut answers);
            let counts = answers.split_off(row.buffer - COUNTS);
            assert_eq!(counts, [1, 2]);
            let met: BTreeSet<u8> = answers.into_iter().collect();
            assert_eq!(met, BTreeSet::from([0, 5, 6, 7, 8, 9]));
        }
    }
}
