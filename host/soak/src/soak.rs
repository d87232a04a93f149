//! A run, second by second.

use std::rc::Rc;
use std::time::Instant;

use relay::Method;

use crate::datagram::Arrival;
use crate::disagreement::{disagree, Disagreement};
use crate::meter::Meter;
use crate::network::{Network, CLIENTS};
use crate::options::Options;
use crate::payload::Payloads;
use crate::random::Random;
use crate::receiver::{Answer, Counted, Receiver};
use crate::replays::{Again, Replays};
use crate::replies::Replies;
use crate::tally::Tally;

/// Datagrams that come in at the relay in a second.
pub const RATE: u64 = 400;

/// The clock at which a run begins.
const START: u64 = 1_700_000_000;

/// One of so many messages accepted is acknowledged.
const REPLY: u64 = 16;

/// Seconds between two comparisons of the sessions.
const LOOK: u64 = 60;

pub struct Soak {
    options: Options,
    /// Seconds since the beginning.
    second: u64,
    network: Network,
    server: Receiver,
    replies: Replies,
    random: Random,
    payloads: Rc<Payloads>,
    tallies: Vec<Tally>,
    opened: Meter,
    looks: u64,
    begun: Instant,
}

/// What a run comes to.
pub struct Summary {
    pub minutes: u64,
    pub seconds: f64,
    /// By client: sessions begun, its datagrams, and the replies to it.
    pub rows: Vec<(u64, Tally, Tally)>,
    pub opened: Meter,
    pub sealed: Meter,
    /// Messages counted.
    pub counted: u64,
    /// How often the sessions were compared.
    pub looks: u64,
    /// What the sessions that are alive at the end have counted.
    pub sessions: Vec<Counted>,
    /// What became of a run that came again, second by second.
    pub again: Again,
}

/// How far a run is.
pub struct State {
    pub second: u64,
    pub seconds_in_all: u64,
    pub tally: Tally,
    pub alive: usize,
}

impl Soak {
    pub fn new(options: Options) -> Self {
        let (method, seed) = (Method::ALL[0], options.seed);
        let payloads = Rc::new(Payloads::new(seed));
        Self {
            options,
            second: 0,
            network: Network::new(method, seed, Rc::clone(&payloads)),
            server: Receiver::new(method, seed, Rc::clone(&payloads)),
            replies: Replies::new(method, seed, Rc::clone(&payloads)),
            random: Random::new(seed.rotate_left(32)),
            payloads,
            tallies: vec![Tally::default(); CLIENTS],
            opened: Meter::default(),
            looks: 0,
            begun: Instant::now(),
        }
    }

    /// Runs to the end, and tells after every minute how far it is.
    pub fn run(mut self, mut tell: impl FnMut(&State)) -> Result<Summary, Disagreement> {
        let in_all = 60 * self.options.minutes;
        let part = in_all / Method::ALL.len() as u64;
        while self.second < in_all {
            if self.second > 0 && self.second % part == 0 {
                self.change_key(Method::ALL[(self.second / part) as usize]);
            }
            self.run_second()?;
            self.second += 1;
            if self.second % LOOK == 0 || self.second % part == 0 {
                let alive = self.look()?;
                tell(&State {
                    second: self.second,
                    seconds_in_all: in_all,
                    tally: self.sum(),
                    alive,
                });
            }
        }
        self.summary()
    }

    fn clock(&self) -> u64 {
        START + self.second
    }

    fn run_second(&mut self) -> Result<(), Disagreement> {
        let clock = self.clock();
        self.network.tick(clock);
        for _ in 0..RATE {
            let arrival = self.network.next(clock);
            self.receive(&arrival, clock)
                .map_err(|fault| self.describe(&fault, &arrival))?;
        }
        Ok(())
    }

    fn receive(&mut self, arrival: &Arrival, clock: u64) -> Result<(), Disagreement> {
        let client = arrival.datagram.origin.client;
        let answer = self.server.receive(arrival, clock, None)?;
        self.tallies[client].add(&answer);
        let Answer::Accepted {
            session_id,
            message,
        } = answer
        else {
            return Ok(());
        };
        let ledger = &mut self.network.ledger;
        ledger.due(arrival.datagram.origin.message)?;
        ledger.count(message, session_id)?;
        if !self.random.one_in(REPLY) {
            return Ok(());
        }
        if self.server.peer_of(session_id, clock) != Some(arrival.peer) {
            return disagree("replies do not go to where the datagram came from".to_string());
        }
        self.replies
            .send(
                &self.server,
                &mut self.network,
                client,
                session_id,
                message,
                clock,
            )
            .map_err(|fault| Disagreement(format!("a reply to it: {fault}")))
    }

    /// Each method has its own key, table and sessions.
    fn change_key(&mut self, method: Method) {
        let seed = self.options.seed;
        self.opened += self.server.meter;
        self.opened += self.replies.meter();
        self.network.change_key(method, self.clock());
        self.server = Receiver::new(method, seed, Rc::clone(&self.payloads));
        self.replies.change_key(method);
    }

    /// Compares all sessions, and gives how many the server has.
    fn look(&mut self) -> Result<usize, Disagreement> {
        let clock = self.clock();
        self.looks += 1;
        self.replies.compare_sessions(clock)?;
        self.server.compare_sessions(clock)
    }

    fn sum(&self) -> Tally {
        let mut sum = Tally::default();
        for tally in &self.tallies {
            sum += *tally;
        }
        sum
    }

    /// Says in which call the library and the rules parted.
    fn describe(&self, fault: &Disagreement, arrival: &Arrival) -> Disagreement {
        let origin = &arrival.datagram.origin;
        Disagreement(format!(
            "at second {} of seed {}, client {}, session {:016x}, packet ID {}, {} bytes: {fault}",
            self.second,
            self.options.seed,
            origin.client + 1,
            origin.session_id,
            origin.packet_id,
            arrival.datagram.bytes.len()
        ))
    }

    fn summary(self) -> Result<Summary, Disagreement> {
        let sessions = self.server.counts(self.clock());
        let mut opened = self.opened;
        opened += self.server.meter;
        opened += self.replies.meter();
        let clients = self.network.clients.iter().map(|client| client.sessions);
        let tallies = self.tallies.into_iter().zip(self.replies.tallies);
        let rows = clients.zip(tallies);
        Ok(Summary {
            minutes: self.options.minutes,
            seconds: self.begun.elapsed().as_secs_f64(),
            rows: rows
                .map(|(sessions, (tally, replies))| (sessions, tally, replies))
                .collect(),
            opened,
            sealed: self.network.sealer.meter,
            counted: self.network.ledger.close()?,
            looks: self.looks,
            sessions,
            again: Replays::run(self.options.seed, &self.payloads)?,
        })
    }
}

#[cfg(test)]
mod tests {
    use super::*;
    use crate::rules;

    fn minutes(minutes: u64, seed: u64) -> Soak {
        Soak::new(Options { minutes, seed })
    }

    fn tallies(seed: u64) -> Vec<(u64, Tally, Tally)> {
        minutes(1, seed).run(|_| {}).unwrap().rows
    }

    #[test]
    fn the_same_seed_gives_the_same_run() {
        assert_eq!(tallies(1), tallies(1));
        assert_ne!(tallies(1), tallies(2));
    }

    /// Four minutes suffice for every refusal that a run can have.
    #[test]
    fn a_short_run_has_every_kind_of_datagram() {
        let summary = minutes(4, 2022).run(|_| {}).unwrap();
        let (mut server, mut clients) = (Tally::default(), Tally::default());
        for (_, tally, replies) in &summary.rows {
            server += *tally;
            clients += *replies;
        }
        assert_eq!(server.accepted + server.refused(), 4 * 60 * RATE);
        assert_eq!(server.accepted, summary.counted);
        assert!(summary.sessions.len() > 32);
        let repeats: u64 = summary.sessions.iter().map(|s| s.library.repeats).sum();
        assert!(0 < repeats && repeats <= server.refused_with(rules::REPLAY));
        for number in [
            rules::LENGTH,
            rules::ROOM,
            rules::NOT_AUTHENTIC,
            rules::TYPE,
            rules::WRONG_TIME,
            rules::REPLAY,
            rules::FULL,
        ] {
            assert_ne!(server.refused_with(number), 0, "refusal {number}");
        }
        for number in [rules::NOT_AUTHENTIC, rules::REPLAY, rules::BINDING] {
            assert_ne!(clients.refused_with(number), 0, "refusal {number}");
        }
    }

    #[test]
    fn a_table_that_forgets_is_found_out() {
        let mut soak = minutes(1, 1);
        while soak.second < 20 {
            soak.run_second().unwrap();
            soak.second += 1;
        }
        soak.look().unwrap();
        soak.server.lose_table();
        assert!(soak.look().is_err(), "by its sessions");
        let found = (20..60).find_map(|second| {
            soak.second = second;
            soak.run_second().err()
        });
        let message = found.expect("by what it accepts").to_string();
        assert!(
            message.contains("the library accepted it, the rules refused it with 8"),
            "{message}"
        );
    }
}
