//! The sessions that a table remembers.

use std::fmt;

use crate::Peer;

/// The words of a record.
pub(crate) const RECORD_WORDS: usize = 13;

/// How many packet IDs a session remembers, from the highest down.
const WINDOW: u64 = 256;

/// A session that is alive in a table: what has been accepted of one sender.
#[derive(Clone, Debug, PartialEq, Eq)]
pub struct Session {
    /// The sender's session ID.
    pub id: u64,
    /// The highest packet ID accepted.
    pub highest_packet: u64,
    /// The latest clock at which a datagram was accepted.
    pub last_time: u64,
    /// Where the last accepted datagram came from, and replies go.
    pub peer: Peer,
    /// How many datagrams were accepted since the session began, the first one
    /// included; it stops at `u64::MAX`.
    pub accepted: u64,
    /// How many were refused as [`Replay`](crate::Refusal::Replay) since then, those
    /// that came too late for the window included; it stops at `u64::MAX`.
    pub repeats: u64,
    /// Bit i of word k marks packet ID `highest_packet - 64 k - i`.
    marks: [u64; 4],
}

impl Session {
    /// The session of a record's words, if the record is in use and alive.
    pub(crate) fn alive(record: &[u64], retention: u64, clock: u64) -> Option<Self> {
        let [in_use, id, highest_packet, last_time, a, b, c, d, first, second, port, accepted, repeats] =
            *<&[u64; RECORD_WORDS]>::try_from(record).ok()?;
        // The difference does not overflow, as the sum of last time and retention
        // could. It is 0 for a clock before the last time.
        let is_alive = in_use != 0 && clock.saturating_sub(last_time) <= retention;
        is_alive.then_some(Self {
            id,
            highest_packet,
            last_time,
            peer: Peer {
                first,
                second,
                // The meaning of the word is its low 16 bits.
                port: port as u16,
            },
            accepted,
            repeats,
            marks: [a, b, c, d],
        })
    }

    /// How many packet IDs of the window are marked as accepted: 256 at most. IDs that
    /// have left the window are not among them.
    pub fn marked_in_window(&self) -> u32 {
        self.marks.iter().map(|word| word.count_ones()).sum()
    }

    /// Whether a packet ID lies in the window and is marked as accepted.
    pub fn is_marked(&self, packet_id: u64) -> bool {
        match self.highest_packet.checked_sub(packet_id) {
            Some(distance @ ..WINDOW) => {
                let (word, bit) = (distance as usize / 64, distance % 64);
                self.marks[word] >> bit & 1 == 1
            }
            _ => false,
        }
    }

    /// Whether a datagram of this packet ID would be accepted, were all else good:
    /// it is above the highest one, or in the window and not marked.
    pub fn is_fresh(&self, packet_id: u64) -> bool {
        match self.highest_packet.checked_sub(packet_id) {
            None => true,
            Some(distance) => distance < WINDOW && !self.is_marked(packet_id),
        }
    }
}

impl fmt::Display for Session {
    fn fmt(&self, f: &mut fmt::Formatter<'_>) -> fmt::Result {
        write!(
            f,
            "{:016x} from {}, last at {}, highest packet {}, {} of {WINDOW} marked, {} accepted, {} repeats",
            self.id,
            self.peer,
            self.last_time,
            self.highest_packet,
            self.marked_in_window(),
            self.accepted,
            self.repeats
        )
    }
}
