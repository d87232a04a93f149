//! The plain rules of sessions, written without the library: a book with a page for
//! each session, which lists every packet ID that was accepted.

use std::collections::{HashMap, HashSet};
use std::net::SocketAddr;

/// How many sessions may be alive at once.
const PAGES: usize = 64;

/// How far below the highest packet ID a fresh one may lie.
const WINDOW: u64 = 256;

/// What the book says to a datagram that is good in all else.
#[derive(Clone, Copy, Debug, PartialEq, Eq)]
pub enum Entry {
    Accepted,
    Replay,
    Full,
}

pub struct Page {
    pub highest: u64,
    pub accepted: HashSet<u64>,
    /// How many datagrams were refused as replays since the session began.
    pub repeats: u64,
    pub last_time: u64,
    pub peer: SocketAddr,
}

impl Page {
    /// The accepted packet IDs that a session remembers.
    pub fn remembered(&self) -> impl Iterator<Item = u64> + '_ {
        let lowest = self.highest.saturating_sub(WINDOW - 1);
        (lowest..=self.highest).filter(|packet_id| self.accepted.contains(packet_id))
    }

    fn enter(&mut self, packet_id: u64, clock: u64, peer: SocketAddr) -> Entry {
        if !self.is_fresh(packet_id) {
            self.repeats += 1;
            return Entry::Replay;
        }
        self.accepted.insert(packet_id);
        self.highest = self.highest.max(packet_id);
        self.last_time = clock;
        self.peer = peer;
        Entry::Accepted
    }

    fn is_fresh(&self, packet_id: u64) -> bool {
        packet_id > self.highest
            || (self.highest - packet_id < WINDOW && !self.accepted.contains(&packet_id))
    }
}

pub struct Book {
    retention: u64,
    pages: HashMap<u64, Page>,
}

impl Book {
    /// A book without pages. A page is alive while the clock is not past its last
    /// time, or past it by no more than the retention.
    pub fn new(retention: u64) -> Self {
        Self {
            retention,
            pages: HashMap::new(),
        }
    }

    /// Enters a datagram. The clock never goes back.
    pub fn enter(
        &mut self,
        session_id: u64,
        packet_id: u64,
        clock: u64,
        peer: SocketAddr,
    ) -> Entry {
        let retention = self.retention;
        let page = self.pages.get_mut(&session_id);
        if let Some(page) = page.filter(|page| is_alive(page, retention, clock)) {
            return page.enter(packet_id, clock, peer);
        }
        if self.alive(clock).count() >= PAGES {
            return Entry::Full;
        }
        let page = Page {
            highest: packet_id,
            accepted: HashSet::from([packet_id]),
            repeats: 0,
            last_time: clock,
            peer,
        };
        self.pages.insert(session_id, page);
        Entry::Accepted
    }

    /// The pages that are alive, with their session IDs.
    pub fn alive(&self, clock: u64) -> impl Iterator<Item = (u64, &Page)> + '_ {
        let pages = self.pages.iter().map(|(id, page)| (*id, page));
        pages.filter(move |(_, page)| is_alive(page, self.retention, clock))
    }
}

fn is_alive(page: &Page, retention: u64, clock: u64) -> bool {
    clock <= page.last_time + retention
}

#[cfg(test)]
mod tests {
    use super::{Book, Entry};
    use std::net::SocketAddr;

    fn peer(port: u16) -> SocketAddr {
        SocketAddr::from(([192, 0, 2, 1], port))
    }

    /// A book in which only packet ID 300 of session 7 was accepted, at 1,000.
    fn book_at_300() -> Book {
        let mut book = Book::new(60);
        assert_eq!(book.enter(7, 300, 1_000, peer(1)), Entry::Accepted);
        book
    }

    #[test]
    fn the_window_reaches_255_packets_back() {
        for (packet_id, entry) in [
            (45, Entry::Accepted),
            (44, Entry::Replay),
            (300, Entry::Replay),
            (301, Entry::Accepted),
        ] {
            assert_eq!(book_at_300().enter(7, packet_id, 1_000, peer(1)), entry);
        }
    }

    #[test]
    fn the_window_moves_up() {
        let mut book = book_at_300();
        assert_eq!(book.enter(7, 556, 1_000, peer(1)), Entry::Accepted);
        assert_eq!(book.enter(7, 300, 1_000, peer(1)), Entry::Replay);
        assert_eq!(book.enter(7, 301, 1_000, peer(1)), Entry::Accepted);
        let (_, page) = book.alive(1_000).next().unwrap();
        assert!(page.remembered().eq([301, 556]));
    }

    #[test]
    fn a_page_is_alive_for_60_seconds() {
        let mut book = book_at_300();
        assert_eq!(book.enter(7, 300, 1_060, peer(1)), Entry::Replay);
        assert_eq!(book.alive(1_060).count(), 1);
        assert_eq!(book.alive(1_061).count(), 0);
        assert_eq!(book.enter(7, 300, 1_061, peer(1)), Entry::Accepted);
    }

    #[test]
    fn a_replay_changes_its_count_alone() {
        let mut book = book_at_300();
        assert_eq!(book.enter(7, 300, 1_030, peer(2)), Entry::Replay);
        assert_eq!(book.enter(7, 44, 1_030, peer(2)), Entry::Replay);
        let (_, page) = book.alive(1_030).next().unwrap();
        assert_eq!((page.last_time, page.peer), (1_000, peer(1)));
        assert_eq!((page.accepted.len(), page.repeats), (1, 2));
    }

    #[test]
    fn the_65th_session_waits_until_one_is_forgotten() {
        let mut book = Book::new(60);
        for id in 0..64 {
            let clock = 1_000 + id.min(1);
            assert_eq!(book.enter(id, 0, clock, peer(1)), Entry::Accepted);
        }
        assert_eq!(book.enter(64, 0, 1_060, peer(1)), Entry::Full);
        assert_eq!(book.enter(63, 1, 1_060, peer(1)), Entry::Accepted);
        assert_eq!(book.enter(64, 0, 1_061, peer(1)), Entry::Accepted);
        assert_eq!(book.enter(0, 1, 1_061, peer(1)), Entry::Full);
    }
}
