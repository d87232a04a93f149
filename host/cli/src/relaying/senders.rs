//! Senders that are known by the address that they send from.

use std::io;
use std::net::SocketAddr;

use super::datagrams::{Dropped, SENDERS};
use relay::Refusal;

struct Sender<T> {
    at: SocketAddr,
    heard: u64,
    own: T,
}

/// At most 64 of them, each forgotten when it was not heard for longer than the retention.
pub struct Senders<T> {
    retention: u64,
    senders: Vec<Sender<T>>,
}

impl<T> Senders<T> {
    pub fn new(retention: u64) -> Self {
        Self {
            retention,
            senders: Vec::with_capacity(SENDERS),
        }
    }

    pub fn retention(&self) -> u64 {
        self.retention
    }

    /// Notes that a sender was heard, and whether it is a new one, for which `begin` makes what
    /// belongs to it.
    pub fn hear(
        &mut self,
        clock: u64,
        at: SocketAddr,
        begin: impl FnOnce() -> io::Result<T>,
    ) -> Result<bool, Dropped> {
        let retention = self.retention;
        self.senders
            .retain(|sender| is_alive(sender.heard, retention, clock));
        if let Some(sender) = self.senders.iter_mut().find(|sender| sender.at == at) {
            sender.heard = clock;
            return Ok(false);
        }
        if self.senders.len() == SENDERS {
            return Err(Dropped::Refused(Refusal::Full));
        }
        let (heard, own) = (clock, begin()?);
        self.senders.push(Sender { at, heard, own });
        Ok(true)
    }

    /// What belongs to a sender that is remembered.
    pub fn find(&mut self, clock: u64, at: SocketAddr) -> Option<&mut T> {
        let retention = self.retention;
        let is_it =
            |sender: &&mut Sender<T>| sender.at == at && is_alive(sender.heard, retention, clock);
        self.senders
            .iter_mut()
            .find(is_it)
            .map(|sender| &mut sender.own)
    }

    pub fn is_alive(&self, clock: u64, at: SocketAddr) -> bool {
        let is_it =
            |sender: &Sender<T>| sender.at == at && is_alive(sender.heard, self.retention, clock);
        self.senders.iter().any(is_it)
    }
}

fn is_alive(heard: u64, retention: u64, clock: u64) -> bool {
    clock.saturating_sub(heard) <= retention
}

#[cfg(test)]
mod tests {
    use std::net::SocketAddr;

    use super::{Dropped, Senders, SENDERS};
    use relay::Refusal;

    fn sender(port: usize) -> SocketAddr {
        SocketAddr::from(([127, 0, 0, 1], port as u16))
    }

    #[test]
    fn a_silent_sender_is_forgotten() {
        let mut senders = Senders::new(60);
        assert!(senders.hear(1_000, sender(1), || Ok('a')).unwrap());
        assert!(!senders.hear(1_030, sender(1), || Ok('b')).unwrap());
        assert_eq!(senders.find(1_090, sender(1)), Some(&mut 'a'));
        assert!(!senders.is_alive(1_091, sender(1)));
        assert!(senders.hear(1_091, sender(1), || Ok('c')).unwrap());
        assert_eq!(senders.find(1_091, sender(1)), Some(&mut 'c'));
    }

    #[test]
    fn there_is_room_for_64() {
        let mut senders = Senders::new(60);
        for port in 0..SENDERS {
            assert!(senders.hear(1_000, sender(port), || Ok(())).unwrap());
        }
        let more = senders.hear(1_060, sender(SENDERS), || Ok(()));
        assert!(matches!(more, Err(Dropped::Refused(Refusal::Full))));
        assert!(senders.hear(1_061, sender(SENDERS), || Ok(())).unwrap());
    }
}
