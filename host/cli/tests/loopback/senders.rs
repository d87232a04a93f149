//! The bench's senders: each sends the readings of one series from a socket of its own.

use std::net::{Ipv4Addr, SocketAddr, UdpSocket};
use std::thread;
use std::time::Duration;

use relay::MAX_DATAGRAM;

use crate::payload::Message;
use crate::random::Random;
use crate::readings::{Arrivals, PAYLOADS};
use crate::wait;

/// How long payloads are, by weight: most fit an Ethernet frame.
const SIZES: &[(u64, (u64, u64))] = &[
    (60, (10, 200)),
    (25, (200, 1_400)),
    (10, (1_400, 9_000)),
    (4, (9_000, 30_000)),
    (1, (30_000, 60_000)),
];

/// A short payload.
const SHORT: usize = 200;

/// Between readings that are sent in a row, so that no socket's room is too small for them.
const PACE: Duration = Duration::from_millis(1);

pub struct Senders {
    sockets: Vec<UdpSocket>,
    /// How many readings each has sent.
    sent: Vec<u64>,
    branch: SocketAddr,
    random: Random,
    room: Vec<u8>,
    /// What came back.
    pub returned: Arrivals,
}

impl Senders {
    pub fn new(count: u16, branch: SocketAddr) -> Self {
        let mut returned = Arrivals::default();
        let sockets = (0..count).map(|series| {
            let socket = UdpSocket::bind((Ipv4Addr::LOCALHOST, 0)).expect("a sender is bound");
            socket
                .set_nonblocking(true)
                .expect("a sender does not wait");
            let port = socket.local_addr().expect("a sender has an address").port();
            returned.ports.insert(port, series);
            socket
        });
        Self {
            sockets: sockets.collect(),
            sent: vec![0; count.into()],
            branch,
            random: Random::new(2022),
            room: vec![0; MAX_DATAGRAM],
            returned,
        }
    }

    pub fn len(&self) -> usize {
        self.sockets.len()
    }

    /// Sends the next reading of a series.
    pub fn send(&mut self, series: usize) -> Message {
        let (from, to) = self.random.weighted(SIZES);
        let length = self.random.within(from..=to) as usize;
        self.send_long(series, length)
    }

    /// Sends the next reading of a series, so long.
    pub fn send_long(&mut self, series: usize, length: usize) -> Message {
        let reading = Message {
            series: series as u16,
            number: self.sent[series],
        };
        let payload = PAYLOADS.make(reading, length);
        let sent = self.sockets[series].send_to(&payload, self.branch);
        sent.expect("a reading is sent");
        self.sent[series] += 1;
        reading
    }

    /// Sends a short reading, and gives the branch time for it.
    pub fn send_short(&mut self, series: usize) -> Message {
        thread::sleep(PACE);
        self.send_long(series, SHORT)
    }

    /// Every sender sends so many short readings, by turns.
    pub fn send_rounds(&mut self, rounds: usize) -> Vec<Message> {
        let mut readings = Vec::new();
        for number in 0..rounds * self.len() {
            readings.push(self.send_short(number % self.len()));
        }
        readings
    }

    /// The same, each round when the one before has come back: however busy the machine is, all
    /// sockets have room for one.
    pub fn exchange_rounds(&mut self, rounds: usize) -> Vec<Message> {
        let mut readings = Vec::new();
        for _ in 0..rounds {
            let round = self.send_rounds(1);
            self.await_return(&round);
            readings.extend(round);
        }
        readings
    }

    /// Waits until readings have come back.
    pub fn await_return(&mut self, readings: &[Message]) {
        wait::until("every reading comes back", || {
            self.receive();
            let returned = &self.returned.readings;
            readings.iter().all(|reading| returned.contains(reading))
        });
        self.returned.assert_sound("the senders");
    }

    /// Notes what has come back.
    pub fn receive(&mut self) {
        for socket in &self.sockets {
            let port = socket.local_addr().expect("a sender has an address").port();
            while let Ok((length, from)) = socket.recv_from(&mut self.room) {
                if from != self.branch {
                    let fault = format!("an answer comes from {from}");
                    self.returned.faults.push(fault);
                }
                self.returned.note(port, &self.room[..length]);
            }
        }
    }
}
