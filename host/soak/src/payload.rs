//! Payloads: a message, and bytes by which the whole payload is recognised.

use crate::random::Random;

/// A message of a client: each client has a series, and numbers its messages.
#[derive(Clone, Copy, Debug, PartialEq, Eq, PartialOrd, Ord)]
pub struct Message {
    pub series: u16,
    pub number: u64,
}

/// The bytes of a message, and so the shortest payload.
pub const SHORTEST: usize = 2 + 8;

/// The longest payload is shorter.
const LONGEST: usize = 65_536;

/// From how many places a payload's other bytes may be taken.
const PLACES: usize = 251;

pub struct Payloads {
    bytes: Vec<u8>,
}

impl Payloads {
    pub fn new(seed: u64) -> Self {
        Self {
            bytes: Random::new(seed).bytes(LONGEST + PLACES),
        }
    }

    /// The payload of a message, at least as long as the message itself.
    pub fn make(&self, message: Message, length: usize) -> Vec<u8> {
        let mut payload = Vec::with_capacity(length);
        payload.extend(message.series.to_be_bytes());
        payload.extend(message.number.to_be_bytes());
        payload.extend(self.rest(message, length.saturating_sub(SHORTEST)));
        payload
    }

    /// The message that a payload carries, if its other bytes are that message's.
    pub fn read(&self, payload: &[u8]) -> Option<Message> {
        let (series, rest) = payload.split_first_chunk()?;
        let (number, rest) = rest.split_first_chunk()?;
        let message = Message {
            series: u16::from_be_bytes(*series),
            number: u64::from_be_bytes(*number),
        };
        (rest == self.rest(message, rest.len())).then_some(message)
    }

    /// Messages that follow each other, and neighbouring series, differ in all
    /// their bytes.
    fn rest(&self, message: Message, length: usize) -> &[u8] {
        let number = message.number.wrapping_add(u64::from(message.series) * 101);
        let place = (number % PLACES as u64) as usize;
        &self.bytes[place..place + length]
    }
}

#[cfg(test)]
mod tests {
    use super::{Message, Payloads, SHORTEST};

    #[test]
    fn a_payload_carries_its_message() {
        let payloads = Payloads::new(1);
        for (series, number) in [(0, 0), (63, 1), (9, u64::MAX)] {
            let message = Message { series, number };
            for length in [0, SHORTEST, SHORTEST + 1, 1_400, 65_457] {
                let payload = payloads.make(message, length);
                assert_eq!(payload.len(), length.max(SHORTEST));
                assert_eq!(payloads.read(&payload), Some(message));
            }
        }
    }

    #[test]
    fn a_payload_that_changed_is_recognised() {
        let payloads = Payloads::new(1);
        let message = Message {
            series: 3,
            number: 500,
        };
        let good = payloads.make(message, 100);
        for place in 0..good.len() {
            let mut payload = good.clone();
            payload[place] ^= 1;
            assert_ne!(payloads.read(&payload), Some(message));
        }
        assert_eq!(payloads.read(&good[..SHORTEST - 1]), None);
    }
}
