//! Every datagram of a run again, at every later second until it is stale, while
//! sessions are forgotten and begun again: no bytes may be accepted twice.
//!
//! Clients and servers send to one table, which opens for both sides. A sender falls
//! silent until its session is forgotten, and then goes on with the same one.

use std::collections::{HashSet, VecDeque};
use std::rc::Rc;

use relay::{Method, SealSession};

use crate::client::any_peer;
use crate::datagram::{Arrival, Datagram};
use crate::disagreement::{disagree, Disagreement};
use crate::payload::{Message, Payloads};
use crate::random::Random;
use crate::receiver::{Answer, Receiver, RETENTION};
use crate::rules;
use crate::sealer::{Order, Sealer};
use crate::tally::Tally;

/// Half of them are clients, the others servers.
const SENDERS: usize = 12;

/// How long it takes with each method, and when it begins.
const SECONDS: u64 = 300;
const START: u64 = 1_600_000_000;

/// One in so many seconds a sender falls silent, for longer than it is remembered.
const SILENT: u64 = 40;
const LONGEST_SILENCE: u64 = RETENTION + 20;

struct Sender {
    session: SealSession,
    messages: u64,
    silent_until: u64,
}

pub struct Replays {
    sealer: Sealer,
    receiver: Receiver,
    random: Random,
    senders: Vec<Sender>,
    /// What was sent, and is not stale yet.
    sent: VecDeque<Rc<Datagram>>,
    counted: HashSet<Vec<u8>>,
    again: Again,
}

/// What it comes to.
#[derive(Clone, Copy, Debug, Default, PartialEq, Eq)]
pub struct Again {
    pub sent: u64,
    /// Of the datagrams as they came first, and of their copies.
    pub first: Tally,
    pub copies: Tally,
    /// How often a session went on after it was forgotten.
    pub begun_again: u64,
}

impl Replays {
    /// With every method, and what they come to in all.
    pub fn run(seed: u64, payloads: &Rc<Payloads>) -> Result<Again, Disagreement> {
        let mut again = Again::default();
        for method in Method::ALL {
            let mut replays = Self::new(method, seed, Rc::clone(payloads), again);
            for second in 0..SECONDS {
                replays.run_second(START + second)?;
            }
            again = replays.again;
        }
        Ok(again)
    }

    fn new(method: Method, seed: u64, payloads: Rc<Payloads>, again: Again) -> Self {
        let mut random = Random::new(seed.rotate_left(16));
        Self {
            sealer: Sealer::new(method, seed, Rc::clone(&payloads)),
            receiver: Receiver::new(method, seed, payloads),
            senders: (0..SENDERS).map(|s| sender(s, &mut random)).collect(),
            random,
            sent: VecDeque::new(),
            counted: HashSet::new(),
            again,
        }
    }

    /// Copies first, so that the last one of a silent sender comes while it is silent.
    fn run_second(&mut self, clock: u64) -> Result<(), Disagreement> {
        for datagram in self.sent.clone() {
            let answer = self.receive(&datagram, clock)?;
            self.again.copies.add(&answer);
        }
        self.sent
            .retain(|datagram| clock <= datagram.origin.timestamp + rules::TIME);
        for sender in 0..SENDERS {
            if self.senders[sender].silent_until <= clock {
                self.send(sender, clock)?;
            }
        }
        self.receiver.compare_sessions(clock)?;
        Ok(())
    }

    /// A datagram of any time that is valid; the last one before a silence is stamped as
    /// far ahead as may be, and is timely up to the last second of its session.
    fn send(&mut self, sender: usize, clock: u64) -> Result<(), Disagreement> {
        let falls_silent = self.random.one_in(SILENT);
        let ahead = if falls_silent {
            2 * rules::TIME
        } else {
            self.random.within(0..=2 * rules::TIME)
        };
        let datagram = self.seal(sender, clock + ahead - rules::TIME);
        let answer = self.receive(&datagram, clock)?;
        self.again.sent += 1;
        self.again.first.add(&answer);
        self.sent.push_back(datagram);
        if falls_silent {
            let seconds = self.random.within(RETENTION + 1..=LONGEST_SILENCE);
            self.senders[sender].silent_until = clock + seconds;
            self.again.begun_again += u64::from(clock + seconds < START + SECONDS);
        }
        Ok(())
    }

    fn seal(&mut self, sender: usize, timestamp: u64) -> Rc<Datagram> {
        let Sender {
            session, messages, ..
        } = &mut self.senders[sender];
        *messages += 1;
        let order = Order {
            client: sender,
            message: Message {
                series: sender as u16,
                number: *messages,
            },
            timestamp,
            padding: 0,
            size: 64,
        };
        self.sealer.seal(session, &order)
    }

    /// Opens it for the side that it is meant for, and counts what is accepted.
    fn receive(&mut self, datagram: &Rc<Datagram>, clock: u64) -> Result<Answer, Disagreement> {
        let arrival = Arrival::new(Rc::clone(datagram), any_peer(&mut self.random));
        let origin = &datagram.origin;
        let answer = self
            .receiver
            .receive(&arrival, clock, origin.client_session)?;
        let is_accepted = matches!(answer, Answer::Accepted { .. });
        if is_accepted && !self.counted.insert(datagram.bytes.clone()) {
            return disagree(format!(
                "packet {} of session {:016x} was accepted twice, the second time at {clock}",
                origin.packet_id, origin.session_id
            ));
        }
        Ok(answer)
    }
}

/// A client, or a server that replies to one.
fn sender(number: usize, random: &mut Random) -> Sender {
    let id = random.word();
    let session = if number % 2 == 0 {
        SealSession::client(id)
    } else {
        SealSession::from_words(&[1, id, random.word(), 0])
    };
    Sender {
        session,
        messages: 0,
        silent_until: START,
    }
}

#[cfg(test)]
mod tests {
    use super::*;

    fn replays(method: Method) -> Replays {
        let payloads = Rc::new(Payloads::new(1));
        Replays::new(method, 1, payloads, Again::default())
    }

    #[test]
    fn every_datagram_is_counted_once() {
        let again = Replays::run(2022, &Rc::new(Payloads::new(2022))).unwrap();
        assert_eq!(again.first.accepted, again.sent);
        assert_eq!(again.copies.accepted, 0);
        assert!(again.copies.refused_with(rules::REPLAY) > 20 * again.sent);
        assert_eq!(
            again.copies.refused(),
            again.copies.refused_with(rules::REPLAY) + again.copies.refused_with(rules::WRONG_TIME)
        );
        assert!(again.begun_again > 20, "{}", again.begun_again);
    }

    /// The copy that comes 60 seconds after a datagram stamped 30 ahead is a repeat; the
    /// next one is stale.
    #[test]
    fn a_session_outlives_its_last_datagram() {
        for method in Method::ALL {
            let mut replays = replays(method);
            let datagram = replays.seal(0, START + 30);
            assert!(matches!(
                replays.receive(&datagram, START).unwrap(),
                Answer::Accepted { .. }
            ));
            for (clock, number) in [(START + 60, rules::REPLAY), (START + 61, rules::WRONG_TIME)] {
                let answer = replays.receive(&datagram, clock).unwrap();
                assert!(matches!(answer, Answer::Refused(n) if n == number));
            }
        }
    }

    #[test]
    fn a_table_that_forgets_is_found_out() {
        let mut replays = replays(Method::ChaCha20Poly1305);
        for second in 0..20 {
            replays.run_second(START + second).unwrap();
        }
        replays.receiver.lose_table();
        assert!(replays.run_second(START + 20).is_err());
    }
}
