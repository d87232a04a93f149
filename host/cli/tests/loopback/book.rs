//! The plain book: what a box has to answer to the datagrams that reach it.

use std::collections::{BTreeMap, BTreeSet};

use relay::{Key, Peer, Table};

use crate::payload::Message;
use crate::readings::PAYLOADS;

/// A packet ID so far behind the highest one is not fresh.
const WINDOW: u64 = 256;

/// The shortest datagram of a method that has no nonce.
const SHORTEST: usize = 32;

/// A client's datagram, as the key shows it.
#[derive(Clone, Copy, Debug)]
pub struct Opened {
    session: u64,
    packet: u64,
    reading: Message,
}

impl Opened {
    /// Opens a datagram as if it were the first one.
    pub fn new(key: &Key, clock: u64, datagram: &[u8]) -> Result<Self, String> {
        let mut room = vec![0; datagram.len()];
        let nobody = Peer {
            first: 0,
            second: 0,
            port: 0,
        };
        let mut table = Table::new(0).map_err(|error| error.to_string())?;
        let header = table.open_server(key, clock, nobody, datagram, &mut room);
        let header = header.map_err(|refusal| refusal.to_string())?;
        let reading = PAYLOADS.read(header.payload(&room));
        Ok(Self {
            session: header.session_id,
            packet: header.packet_id,
            reading: reading.ok_or("a datagram carries no reading")?,
        })
    }
}

/// What a box has to know of a session.
#[derive(Debug, Default)]
pub struct Page {
    /// The series whose readings it sends.
    pub series: u16,
    pub accepted: BTreeSet<u64>,
    pub repeats: u64,
}

impl Page {
    fn is_fresh(&self, packet: u64) -> bool {
        let highest = self.accepted.last().copied();
        let is_behind = highest.is_some_and(|highest| packet.saturating_add(WINDOW) <= highest);
        !is_behind && !self.accepted.contains(&packet)
    }
}

/// What reached a box.
#[derive(Default)]
pub struct Book {
    pub pages: BTreeMap<u64, Page>,
    /// The readings of what it has to accept.
    pub readings: BTreeSet<Message>,
    /// How often it has to give each answer.
    pub answers: [u64; crate::status::REFUSALS],
    /// How many came too late for the window, though they came once.
    pub left_behind: u64,
}

impl Book {
    pub fn note(&mut self, datagram: Opened, is_too_late: bool) {
        if is_too_late {
            self.answers[7] += 1;
            return;
        }
        let page = self.pages.entry(datagram.session).or_default();
        page.series = datagram.reading.series;
        if page.is_fresh(datagram.packet) {
            page.accepted.insert(datagram.packet);
            self.readings.insert(datagram.reading);
            self.answers[0] += 1;
        } else {
            self.left_behind += u64::from(!page.accepted.contains(&datagram.packet));
            page.repeats += 1;
            self.answers[8] += 1;
        }
    }

    pub fn note_damaged(&mut self, length: usize) {
        let answer = if length < SHORTEST { 2 } else { 4 };
        self.answers[answer] += 1;
    }
}
