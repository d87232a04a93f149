//! Replies of the server to its clients: for some messages an acknowledgement, which
//! the client opens on a table of its own.

use std::collections::HashMap;
use std::net::SocketAddr;
use std::rc::Rc;

use relay::{Method, SealSession};

use crate::damage;
use crate::datagram::{Arrival, Datagram};
use crate::disagreement::{disagree, Disagreement};
use crate::meter::Meter;
use crate::network::{Network, CLIENTS};
use crate::payload::{Message, Payloads};
use crate::random::Random;
use crate::receiver::{Answer, Receiver};
use crate::sealer::Order;
use crate::tally::Tally;

/// What happens to a reply.
#[derive(Clone, Copy)]
enum Event {
    Fresh,
    Replay,
    Forgery,
    /// It comes to another client.
    Astray,
}

const EVENTS: [(u64, Event); 4] = [
    (85, Event::Fresh),
    (5, Event::Replay),
    (5, Event::Forgery),
    (5, Event::Astray),
];

/// Lengths of replies.
const SIZES: std::ops::RangeInclusive<u64> = 80..=240;

pub struct Replies {
    seed: u64,
    payloads: Rc<Payloads>,
    random: Random,
    /// For each client.
    receivers: Vec<Receiver>,
    /// The server's sending sessions, by the client's session ID.
    sessions: HashMap<u64, SealSession>,
    pub tallies: Vec<Tally>,
}

impl Replies {
    pub fn new(method: Method, seed: u64, payloads: Rc<Payloads>) -> Self {
        let mut replies = Self {
            seed,
            payloads,
            // Other numbers than the network's.
            random: Random::new(!seed),
            receivers: Vec::new(),
            sessions: HashMap::new(),
            tallies: vec![Tally::default(); CLIENTS],
        };
        replies.change_key(method);
        replies
    }

    pub fn change_key(&mut self, method: Method) {
        self.sessions.clear();
        let receiver = |_| Receiver::new(method, self.seed, Rc::clone(&self.payloads));
        self.receivers = (0..CLIENTS).map(receiver).collect();
    }

    /// Acknowledges a message of a client's session.
    pub fn send(
        &mut self,
        server: &Receiver,
        network: &mut Network,
        client: usize,
        session_id: u64,
        message: Message,
        clock: u64,
    ) -> Result<(), Disagreement> {
        if !self.sessions.contains_key(&session_id) {
            // Another client's ID first: whether it is free, the rules say.
            let others = network.clients[(client + 1) % CLIENTS].session.id();
            server.begin_reply(others, session_id, clock)?;
            let session = self.begin(server, session_id, clock)?;
            self.sessions.insert(session_id, session);
        }
        let order = Order {
            client,
            message,
            timestamp: clock,
            padding: 0,
            size: self.random.within(SIZES) as usize,
        };
        let session = self.sessions.get_mut(&session_id).expect("it was begun");
        let reply = network.sealer.seal(session, &order);
        let copies = match self.random.weighted(&EVENTS) {
            Event::Fresh => vec![(client, reply)],
            Event::Replay => vec![(client, Rc::clone(&reply)), (client, reply)],
            Event::Forgery => {
                let forged = damage::forge(&reply, &mut self.random);
                vec![(client, forged), (client, reply)]
            }
            Event::Astray => vec![((client + 1) % CLIENTS, reply)],
        };
        for (client, reply) in copies {
            let own = network.clients[client].session.id();
            self.receive(client, own, reply, clock)?;
        }
        Ok(())
    }

    /// Draws IDs until one is no client's.
    fn begin(
        &mut self,
        server: &Receiver,
        session_id: u64,
        clock: u64,
    ) -> Result<SealSession, Disagreement> {
        loop {
            let id = self.random.word();
            if let Some(session) = server.begin_reply(id, session_id, clock)? {
                return Ok(session);
            }
        }
    }

    fn receive(
        &mut self,
        client: usize,
        own_session: u64,
        datagram: Rc<Datagram>,
        clock: u64,
    ) -> Result<(), Disagreement> {
        let series = datagram.origin.message.series;
        let arrival = Arrival::new(datagram, SocketAddr::from(([192, 0, 2, 1], 8388)));
        let receiver = &mut self.receivers[client];
        let answer = receiver.receive(&arrival, clock, Some(own_session))?;
        if matches!(answer, Answer::Accepted { .. }) && usize::from(series) != client {
            return disagree("another client accepted it".to_string());
        }
        self.tallies[client].add(&answer);
        Ok(())
    }

    /// Holds every client's table to its book.
    pub fn compare_sessions(&self, clock: u64) -> Result<(), Disagreement> {
        for receiver in &self.receivers {
            receiver.compare_sessions(clock)?;
        }
        Ok(())
    }

    /// What the clients' tables opened with this method.
    pub fn meter(&self) -> Meter {
        let mut sum = Meter::default();
        for receiver in &self.receivers {
            sum += receiver.meter;
        }
        sum
    }
}
