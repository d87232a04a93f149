//! A client: its sending session, and what of it is still on its way.

use std::collections::VecDeque;
use std::mem;
use std::net::{Ipv4Addr, SocketAddr};
use std::rc::Rc;

use relay::SealSession;

use crate::datagram::Datagram;
use crate::payload::Message;
use crate::random::Random;

/// How many datagrams are kept for somebody to replay or forge.
const RECENT: usize = 16;

/// How far a client's clock may be off.
const SKEW: u64 = 5;

/// A datagram that others of its session overtake.
struct Held {
    /// It arrives behind the datagram of this packet ID.
    behind: u64,
    datagram: Rc<Datagram>,
}

pub struct Client {
    pub session: SealSession,
    pub peer: SocketAddr,
    /// Until when the client sends nothing.
    pub silent_until: Option<u64>,
    /// How many sessions it has begun.
    pub sessions: u64,
    series: u16,
    messages: u64,
    skew: u64,
    recent: VecDeque<Rc<Datagram>>,
    held: Vec<Held>,
}

impl Client {
    /// A client with its first session.
    pub fn new(series: u16, random: &mut Random) -> Self {
        Self {
            session: SealSession::client(random.word()),
            peer: any_peer(random),
            silent_until: None,
            sessions: 1,
            series,
            messages: 0,
            skew: random.within(0..=2 * SKEW),
            recent: VecDeque::new(),
            held: Vec::new(),
        }
    }

    /// Begins a session with a new ID.
    pub fn begin_session(&mut self, random: &mut Random) {
        self.session = SealSession::client(random.word());
        self.sessions += 1;
        self.silent_until = None;
    }

    pub fn move_away(&mut self, random: &mut Random) {
        self.peer = any_peer(random);
    }

    /// What the client's own clock shows.
    pub fn clock(&self, clock: u64) -> u64 {
        clock + self.skew - SKEW
    }

    pub fn next_message(&mut self) -> Message {
        let number = self.messages;
        self.messages += 1;
        Message {
            series: self.series,
            number,
        }
    }

    /// Leaves out packet IDs, as if their datagrams were lost.
    pub fn lose(&mut self, packets: u64) {
        let mut words = *self.session.words();
        words[3] += packets;
        self.session = SealSession::from_words(&words);
    }

    /// Keeps a datagram for somebody to replay or forge.
    pub fn keep(&mut self, datagram: &Rc<Datagram>) {
        if self.recent.len() == RECENT {
            self.recent.pop_front();
        }
        self.recent.push_back(Rc::clone(datagram));
    }

    /// One of the datagrams kept.
    pub fn kept(&self, random: &mut Random) -> Option<Rc<Datagram>> {
        let place = random.place(self.recent.len().max(1));
        self.recent.get(place).map(Rc::clone)
    }

    /// Lets so many datagrams of the session overtake this one.
    pub fn hold(&mut self, datagram: Rc<Datagram>, packets: u64) {
        let behind = datagram.origin.packet_id + packets;
        self.held.push(Held { behind, datagram });
    }

    /// Those that have been overtaken enough by now.
    pub fn overtaken(&mut self) -> Vec<Rc<Datagram>> {
        let next = self.session.next_packet();
        let (due, held) = mem::take(&mut self.held)
            .into_iter()
            .partition::<Vec<_>, _>(|held| held.behind < next);
        self.held = held;
        due.into_iter().map(|held| held.datagram).collect()
    }

    /// All that are held back, as no more of the session will overtake them.
    pub fn all_held(&mut self) -> Vec<Rc<Datagram>> {
        self.held.drain(..).map(|held| held.datagram).collect()
    }
}

/// An IPv4 or an IPv6 address for documentation, and any port.
pub fn any_peer(random: &mut Random) -> SocketAddr {
    let host = random.word() as u8;
    let v4 = Ipv4Addr::new(198, 51, 100, host);
    let port = random.word() as u16;
    if random.one_in(2) {
        return SocketAddr::from((v4, port));
    }
    let v6 = [0x2001, 0xdb8, 0, 0, 0, 0, 0, u16::from(host)];
    SocketAddr::from((v6, port))
}
