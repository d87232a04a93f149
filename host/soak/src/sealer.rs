//! Seals datagrams of either side, and keeps how each was made.

use std::net::SocketAddr;
use std::rc::Rc;

use relay::{Address, Key, Method, Nonce, SealSession};

use crate::datagram::{Datagram, Origin};
use crate::keys::key_of;
use crate::meter::Meter;
use crate::payload::{Message, Payloads, SHORTEST};
use crate::random::Random;

/// What is to be sealed.
pub struct Order {
    pub client: usize,
    pub message: Message,
    pub timestamp: u64,
    pub padding: usize,
    /// The datagram's length, unless that is too short to carry a message.
    pub size: usize,
}

pub struct Sealer {
    seed: u64,
    key: Key,
    /// For nonces.
    random: Random,
    payloads: Rc<Payloads>,
    targets: Vec<Rc<Address>>,
    pub meter: Meter,
}

impl Sealer {
    pub fn new(method: Method, seed: u64, payloads: Rc<Payloads>) -> Self {
        Self {
            seed,
            key: key_of(method, seed),
            // Other numbers than the keys'.
            random: Random::new(seed.rotate_left(24)),
            payloads,
            targets: targets(),
            meter: Meter::default(),
        }
    }

    /// Goes on with the key of a method.
    pub fn change_key(&mut self, method: Method) {
        self.key = key_of(method, self.seed);
    }

    /// A nonce, where the method takes one.
    fn nonce(&mut self) -> Option<Nonce> {
        let takes_nonce = self.key.method().takes_nonce();
        takes_nonce.then(|| {
            let bytes = self.random.bytes(Nonce::LENGTH);
            Nonce::new(bytes.try_into().expect("a nonce's length was asked for"))
        })
    }

    /// Seals the next datagram of a session.
    pub fn seal(&mut self, session: &mut SealSession, order: &Order) -> Rc<Datagram> {
        let place = order.message.number as usize % self.targets.len();
        let target = Rc::clone(&self.targets[place]);
        let method = self.key.method();
        let overhead = session
            .sealed_len(method, &target, order.padding, 0)
            .expect("padding is short");
        let length = order.size.saturating_sub(overhead).max(SHORTEST);
        let payload = self.payloads.make(order.message, length);
        let origin = Origin {
            client: order.client,
            method,
            session_id: session.id(),
            client_session: session.client_id(),
            packet_id: session.next_packet(),
            timestamp: order.timestamp,
            padding: order.padding,
            target: Rc::clone(&target),
            message: order.message,
            is_damaged: false,
        };
        let mut bytes = vec![0; overhead + length];
        let (nonce, key) = (self.nonce(), &self.key);
        let sealed = self.meter.measure(bytes.len(), || {
            let (padding, clock) = (order.padding, order.timestamp);
            session.seal(key, nonce, clock, &target, padding, &payload, &mut bytes)
        });
        assert_eq!(sealed, Ok(bytes.len()), "sealing is never refused here");
        Rc::new(Datagram { bytes, origin })
    }
}

/// Targets of every kind.
fn targets() -> Vec<Rc<Address>> {
    let v6: SocketAddr = "[2001:db8::25]:8086".parse().expect("an address");
    let targets = [
        Address::from(SocketAddr::from(([192, 0, 2, 25], 8086))),
        Address::from(v6),
        Address::name(b"messages.example", 8086).expect("a name"),
        Address::name(b"r", 1).expect("a name"),
    ];
    targets.into_iter().map(Rc::new).collect()
}
