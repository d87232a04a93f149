//! A table of sessions with a window against replays: the rule of the proved one.
//!
//! A packet ID is fresh above the highest one, or less than 256 below it and not
//! yet marked. A session is forgotten when the clock is past its last time by more
//! than the retention. It counts what it accepted and what it refused as repeats.

use super::Refusal;

/// How many sessions there is room for.
const SESSIONS: usize = 64;

/// How far below the highest packet ID a fresh one may be.
const WINDOW: u64 = 256;

type Marks = [u64; WINDOW as usize / 64];

/// Where a datagram came from: an address in two numbers, and a port.
#[derive(Clone, Copy, Default)]
#[allow(
    dead_code,
    reason = "it is kept for answers, and nothing here sends one"
)]
pub struct Peer {
    pub address: [u64; 2],
    pub port: u16,
}

struct Session {
    id: u64,
    highest: u64,
    /// Bit i of word k marks the packet ID that is 64 k + i below the highest.
    marks: Marks,
    last: u64,
    #[allow(dead_code, reason = "as for its fields")]
    peer: Peer,
    /// How many datagrams were accepted and how many repeats refused.
    accepted: u64,
    repeats: u64,
}

pub struct Sessions {
    retention: u64,
    records: [Option<Session>; SESSIONS],
}

impl Sessions {
    pub fn new(retention: u64) -> Self {
        Self {
            retention,
            records: [const { None }; SESSIONS],
        }
    }

    /// What the first record counted: datagrams accepted and repeats.
    pub fn first_counts(&self) -> [u64; 2] {
        let first = self.records[0].as_ref();
        first.map_or([0, 0], |session| [session.accepted, session.repeats])
    }

    /// Forgets the session of the first record, as if it had never been there.
    pub fn forget_first(&mut self) {
        self.records[0] = None;
    }

    /// Accepts a packet ID of a session, which may be a new one.
    pub fn admit(&mut self, clock: u64, id: u64, packet: u64, peer: Peer) -> Result<(), Refusal> {
        let retention = self.retention;
        let is_alive = |session: &Session| clock.saturating_sub(session.last) <= retention;
        let mut records = self.records.iter_mut().flatten();
        match records.find(|session| is_alive(session) && session.id == id) {
            Some(session) => session.admit(clock, packet, peer),
            None => {
                let mut records = self.records.iter_mut();
                let room = records.find(|record| !record.as_ref().is_some_and(is_alive));
                *room.ok_or(Refusal::Full)? = Some(Session::new(clock, id, packet, peer));
                Ok(())
            }
        }
    }
}

impl Session {
    fn new(clock: u64, id: u64, packet: u64, peer: Peer) -> Self {
        Self {
            id,
            highest: packet,
            marks: [1, 0, 0, 0],
            last: clock,
            peer,
            accepted: 1,
            repeats: 0,
        }
    }

    fn admit(&mut self, clock: u64, packet: u64, peer: Peer) -> Result<(), Refusal> {
        let admitted = self.enter(packet);
        match admitted {
            Ok(()) => {
                self.last = self.last.max(clock);
                self.peer = peer;
                self.accepted = self.accepted.saturating_add(1);
            }
            Err(_) => self.repeats = self.repeats.saturating_add(1),
        }
        admitted
    }

    /// Marks a fresh packet ID.
    fn enter(&mut self, packet: u64) -> Result<(), Refusal> {
        if packet > self.highest {
            self.marks = raised(&self.marks, packet - self.highest);
            self.highest = packet;
        }
        let below = self.highest - packet;
        if below >= WINDOW {
            return Err(Refusal::Replay);
        }
        let word = &mut self.marks[(below / 64) as usize];
        let mark = 1 << (below % 64);
        if *word & mark != 0 {
            return Err(Refusal::Replay);
        }
        *word |= mark;
        Ok(())
    }
}

/// The marks as one number, multiplied by a power of two.
fn raised(marks: &Marks, by: u64) -> Marks {
    if by >= WINDOW {
        return Marks::default();
    }
    let (words, bits) = ((by / 64) as usize, by % 64);
    let word = |place: usize, below: usize| {
        let place = place.checked_sub(below);
        place.map_or(0, |place| u128::from(marks[place]))
    };
    std::array::from_fn(|place| {
        let pair = word(place, words) << 64 | word(place, words + 1);
        (pair << bits >> 64) as u64
    })
}

#[cfg(test)]
mod tests {
    use super::{Peer, Sessions, SESSIONS};
    use crate::plain::Refusal;

    const CLOCK: u64 = 1_000;

    fn admit(sessions: &mut Sessions, packet: u64) -> Result<(), Refusal> {
        sessions.admit(CLOCK, 7, packet, Peer::default())
    }

    #[test]
    fn the_window_has_256_packet_ids() {
        let mut sessions = Sessions::new(60);
        assert_eq!(admit(&mut sessions, 300), Ok(()));
        assert_eq!(admit(&mut sessions, 300), Err(Refusal::Replay));
        assert_eq!(admit(&mut sessions, 44), Err(Refusal::Replay));
        assert_eq!(admit(&mut sessions, 45), Ok(()));
        assert_eq!(admit(&mut sessions, 45), Err(Refusal::Replay));
    }

    #[test]
    fn marks_move_with_the_window() {
        for by in [1, 63, 64, 65, 128, 200, 255] {
            let mut sessions = Sessions::new(60);
            assert_eq!(admit(&mut sessions, 300), Ok(()));
            assert_eq!(admit(&mut sessions, 300 + by), Ok(()));
            assert_eq!(admit(&mut sessions, 300), Err(Refusal::Replay), "{by}");
            assert_eq!(admit(&mut sessions, 300 + by), Err(Refusal::Replay), "{by}");
            if by > 1 {
                assert_eq!(admit(&mut sessions, 301), Ok(()), "{by}");
            }
        }
    }

    #[test]
    fn marks_leave_the_window() {
        let mut sessions = Sessions::new(60);
        assert_eq!(admit(&mut sessions, 300), Ok(()));
        assert_eq!(admit(&mut sessions, 556), Ok(()));
        assert_eq!(admit(&mut sessions, 300), Err(Refusal::Replay));
        assert_eq!(admit(&mut sessions, 301), Ok(()));
    }

    #[test]
    fn a_session_counts_what_it_accepted_and_its_repeats() {
        let mut sessions = Sessions::new(60);
        for packet in [300, 300, 44, 301] {
            let _ = admit(&mut sessions, packet);
        }
        let session = sessions.records[0].as_mut().unwrap();
        assert_eq!((session.accepted, session.repeats), (2, 2));
        (session.accepted, session.repeats) = (u64::MAX, u64::MAX);
        assert_eq!(admit(&mut sessions, 302), Ok(()));
        assert_eq!(admit(&mut sessions, 302), Err(Refusal::Replay));
        let session = sessions.records[0].as_ref().unwrap();
        assert_eq!((session.accepted, session.repeats), (u64::MAX, u64::MAX));
    }

    #[test]
    fn a_session_is_forgotten_past_the_retention() {
        let mut sessions = Sessions::new(60);
        let mut admit_at = |clock| sessions.admit(clock, 7, 300, Peer::default());
        assert_eq!(admit_at(1_000), Ok(()));
        assert_eq!(admit_at(990), Err(Refusal::Replay));
        assert_eq!(admit_at(1_060), Err(Refusal::Replay));
        assert_eq!(admit_at(1_061), Ok(()));
    }

    #[test]
    fn a_full_table_takes_no_new_session() {
        let mut sessions = Sessions::new(60);
        for id in 0..SESSIONS as u64 {
            assert_eq!(sessions.admit(CLOCK, id, 0, Peer::default()), Ok(()));
        }
        let peer = Peer::default();
        assert_eq!(sessions.admit(CLOCK, 64, 0, peer), Err(Refusal::Full));
        assert_eq!(sessions.admit(CLOCK, 63, 1, peer), Ok(()));
        assert_eq!(sessions.admit(CLOCK + 61, 64, 0, peer), Ok(()));
    }
}
