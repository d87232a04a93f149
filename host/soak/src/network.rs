//! What comes in at the relay: datagrams of 64 clients, some late, overtaken,
//! replayed or forged.

use std::collections::{BTreeMap, VecDeque};
use std::net::SocketAddr;
use std::rc::Rc;

use relay::{Method, SealSession};

use crate::client::{any_peer, Client};
use crate::damage;
use crate::datagram::{Arrival, Datagram};
use crate::events::{Event, Ranges, EVENTS, LOST, OVERTAKEN, SIZES};
use crate::ledger::Ledger;
use crate::payload::Payloads;
use crate::random::Random;
use crate::sealer::{Order, Sealer};

pub const CLIENTS: usize = 64;

/// The first clients send half of all datagrams, so fast that a datagram may leave
/// the window while its time is still good.
const BUSY: usize = 8;

/// One in so many seconds some client falls silent, begins anew at once, or moves.
const SILENT: u64 = 30;
const ANEW: u64 = 60;
const MOVED: u64 = 20;

pub struct Network {
    pub clients: Vec<Client>,
    pub sealer: Sealer,
    pub ledger: Ledger,
    random: Random,
    ready: VecDeque<Arrival>,
    /// By the clock at which they arrive.
    delayed: BTreeMap<u64, Vec<Arrival>>,
}

impl Network {
    pub fn new(method: Method, seed: u64, payloads: Rc<Payloads>) -> Self {
        let mut random = Random::new(seed);
        let series = 0..CLIENTS as u16;
        Self {
            clients: series.map(|s| Client::new(s, &mut random)).collect(),
            sealer: Sealer::new(method, seed, payloads),
            ledger: Ledger::new(CLIENTS),
            random,
            ready: VecDeque::new(),
            delayed: BTreeMap::new(),
        }
    }

    /// Every client gets the key of a method and begins anew. What is on its way stays
    /// sealed under the old key.
    pub fn change_key(&mut self, method: Method, clock: u64) {
        self.sealer.change_key(method);
        for client in 0..CLIENTS {
            self.begin_anew(client, clock);
        }
    }

    /// A second begins.
    pub fn tick(&mut self, clock: u64) {
        while let Some(entry) = self.delayed.first_entry() {
            if *entry.key() > clock {
                break;
            }
            self.ready.extend(entry.remove());
        }
        for client in &mut self.clients {
            if client.silent_until.is_some_and(|until| until <= clock) {
                client.begin_session(&mut self.random);
            }
        }
        let client = self.random.place(CLIENTS);
        if self.clients[client].silent_until.is_some() {
            return;
        }
        if self.random.one_in(SILENT) {
            self.fall_silent(client, clock);
        } else if self.random.one_in(ANEW) {
            self.begin_anew(client, clock);
        } else if self.random.one_in(MOVED) {
            self.clients[client].move_away(&mut self.random);
        }
    }

    /// The next datagram that comes in.
    pub fn next(&mut self, clock: u64) -> Arrival {
        loop {
            if let Some(arrival) = self.ready.pop_front() {
                return arrival;
            }
            self.act(clock);
        }
    }

    fn act(&mut self, clock: u64) {
        let client = self.sender();
        let now = self.clients[client].clock(clock);
        match self.random.weighted(&EVENTS) {
            Event::Fresh => self.send_at(client, now),
            Event::Overtaken => {
                let packets = self.spread(OVERTAKEN);
                let datagram = self.seal(client, now);
                self.clients[client].hold(datagram, packets);
            }
            Event::Late => {
                let arrives = clock + self.random.within(1..=45);
                let datagram = self.seal(client, now);
                self.delay(client, datagram, arrives);
            }
            Event::Replay => self.replay(client, clock),
            Event::Forgery => self.forge_kept(client),
            Event::ForgeryFirst => {
                let datagram = self.seal(client, now);
                let forged = damage::forge(&datagram, &mut self.random);
                self.arrive(client, forged);
                self.arrive(client, datagram);
            }
            Event::WrongTime => {
                let timestamp = self.wrong_time(clock);
                self.send_at(client, timestamp);
            }
            Event::Mirror => self.mirror(client, now),
            Event::ShortRoom => self.lend_short(client, now),
            Event::Gap => {
                let packets = self.spread(LOST);
                self.clients[client].lose(packets);
                self.send_at(client, now);
            }
        }
    }

    /// Seals a client's next datagram, at what its clock shows.
    fn seal(&mut self, client: usize, timestamp: u64) -> Rc<Datagram> {
        let order = self.order(client, timestamp);
        let sender = &mut self.clients[client];
        let datagram = self.sealer.seal(&mut sender.session, &order);
        sender.keep(&datagram);
        datagram
    }

    fn order(&mut self, client: usize, timestamp: u64) -> Order {
        let message = self.clients[client].next_message();
        let session_id = self.clients[client].session.id();
        self.ledger.sent(message, session_id);
        let padding = if self.random.one_in(4) {
            self.random.place(64)
        } else {
            0
        };
        Order {
            client,
            message,
            timestamp,
            padding,
            size: self.spread(SIZES) as usize,
        }
    }

    /// Seals a datagram that arrives at once, and behind it those that it overtook.
    fn send_at(&mut self, client: usize, timestamp: u64) {
        let datagram = self.seal(client, timestamp);
        self.arrive(client, datagram);
        for datagram in self.clients[client].overtaken() {
            self.arrive(client, datagram);
        }
    }

    fn replay(&mut self, client: usize, clock: u64) {
        let Some(datagram) = self.clients[client].kept(&mut self.random) else {
            return;
        };
        let arrival = Arrival::new(datagram, self.somebody(client));
        if self.random.one_in(3) {
            let arrives = clock + self.random.within(1..=70);
            self.delayed.entry(arrives).or_default().push(arrival);
        } else {
            self.ready.push_back(arrival);
        }
    }

    fn forge_kept(&mut self, client: usize) {
        let Some(datagram) = self.clients[client].kept(&mut self.random) else {
            return;
        };
        let forged = damage::forge(&datagram, &mut self.random);
        let peer = self.somebody(client);
        self.ready.push_back(Arrival::new(forged, peer));
    }

    /// Both sides of the edge, far away, and the ends of the number range.
    fn wrong_time(&mut self, clock: u64) -> u64 {
        let away = self.random.within(32..=100_000);
        let edges = [clock - 30, clock + 30, clock - 31, clock + 31];
        let far = [clock - away, clock + away, 0, u64::MAX];
        if self.random.one_in(2) {
            self.random.pick(&edges)
        } else {
            self.random.pick(&far)
        }
    }

    fn mirror(&mut self, client: usize, timestamp: u64) {
        let own = self.clients[client].session.id();
        // Nobody began it: it is a reply as the key's other holder might make it.
        let mut server = SealSession::from_words(&[1, self.random.word(), own, 0]);
        let order = self.order(client, timestamp);
        let datagram = self.sealer.seal(&mut server, &order);
        self.arrive(client, datagram);
    }

    fn lend_short(&mut self, client: usize, timestamp: u64) {
        let datagram = self.seal(client, timestamp);
        let peer = self.clients[client].peer;
        self.ready.push_back(Arrival {
            is_room_short: true,
            ..Arrival::new(Rc::clone(&datagram), peer)
        });
        self.arrive(client, datagram);
    }

    /// The last datagram's timestamp is 30 seconds ahead. So its time is good for 60
    /// seconds, and copies try both sides of that edge. Then the client waits until
    /// its session is forgotten.
    fn fall_silent(&mut self, client: usize, clock: u64) {
        for datagram in self.clients[client].all_held() {
            self.arrive(client, datagram);
        }
        let datagram = self.seal(client, clock + 30);
        for arrives in [clock + 60, clock + 61] {
            self.delay(client, Rc::clone(&datagram), arrives);
        }
        self.arrive(client, datagram);
        let seconds = self.random.within(62..=120);
        self.clients[client].silent_until = Some(clock + seconds);
    }

    /// A new session at once, while the old one is not forgotten and some of its
    /// datagrams are on their way.
    fn begin_anew(&mut self, client: usize, clock: u64) {
        for datagram in self.clients[client].all_held() {
            let arrives = clock + self.random.within(1..=40);
            self.delay(client, datagram, arrives);
        }
        self.clients[client].begin_session(&mut self.random);
    }

    fn arrive(&mut self, client: usize, datagram: Rc<Datagram>) {
        let peer = self.clients[client].peer;
        self.ready.push_back(Arrival::new(datagram, peer));
    }

    fn delay(&mut self, client: usize, datagram: Rc<Datagram>, arrives: u64) {
        let arrival = Arrival::new(datagram, self.clients[client].peer);
        self.delayed.entry(arrives).or_default().push(arrival);
    }

    /// A client that is not silent, a busy one half of the time.
    fn sender(&mut self) -> usize {
        loop {
            let client = if self.random.one_in(2) {
                self.random.place(BUSY)
            } else {
                BUSY + self.random.place(CLIENTS - BUSY)
            };
            if self.clients[client].silent_until.is_none() {
                return client;
            }
        }
    }

    /// Where copies come from: the client's own address, or another one.
    fn somebody(&mut self, client: usize) -> SocketAddr {
        if self.random.one_in(2) {
            self.clients[client].peer
        } else {
            any_peer(&mut self.random)
        }
    }

    fn spread(&mut self, ranges: &Ranges) -> u64 {
        let (from, to) = self.random.weighted(ranges);
        self.random.within(from..=to)
    }
}

#[cfg(test)]
mod tests {
    use super::Network;
    use crate::payload::Payloads;
    use relay::Method;
    use std::collections::{HashMap, HashSet};
    use std::rc::Rc;

    const CLOCK: u64 = 1_000_000;

    const METHOD: Method = Method::ChaCha8Poly1305;

    /// Datagrams of good time arrive on both sides of the window's edge: 255 and 256
    /// behind the highest of their session.
    #[test]
    fn late_packets_lie_on_both_sides_of_the_edge() {
        let mut network = Network::new(METHOD, 2022, Rc::new(Payloads::new(2022)));
        let mut highest = HashMap::new();
        let mut distances = HashSet::new();
        for clock in CLOCK..CLOCK + 180 {
            network.tick(clock);
            for _ in 0..400 {
                let arrival = network.next(clock);
                let origin = &arrival.datagram.origin;
                if origin.is_damaged || origin.timestamp.abs_diff(clock) > 30 {
                    continue;
                }
                let highest: &mut u64 = highest.entry(origin.session_id).or_insert(0);
                distances.extend(highest.checked_sub(origin.packet_id));
                *highest = origin.packet_id.max(*highest);
            }
        }
        for distance in [1, 8, 255, 256, 257] {
            assert!(distances.contains(&distance), "{distance}");
        }
    }

    #[test]
    fn a_silent_client_comes_back_with_another_session() {
        let mut network = Network::new(METHOD, 1, Rc::new(Payloads::new(1)));
        let before = network.clients[9].session.id();
        network.fall_silent(9, CLOCK);
        assert!((0..1_000).all(|_| network.sender() != 9));
        assert_eq!(network.clients[9].session.id(), before);
        network.tick(CLOCK + 120);
        assert_ne!(network.clients[9].session.id(), before);
    }
}
