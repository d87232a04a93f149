//! A receiver: the library's table and the rules' book side by side.

use std::collections::HashMap;
use std::net::SocketAddr;
use std::rc::Rc;

use relay::{Header, Invalid, Key, Method, Peer, Refusal, SealSession, Session, Table};

use crate::book::{Book, Page};
use crate::datagram::{Arrival, Origin};
use crate::disagreement::{disagree, Disagreement};
use crate::keys::key_of;
use crate::meter::Meter;
use crate::payload::{Message, Payloads};
use crate::rules::{self, Call, Verdict};

/// How long a silent session is remembered.
pub const RETENTION: u64 = 60;

/// Neither zero nor likely in a plaintext for long.
const FILL: u8 = 0xa5;

/// How many bytes behind the plaintext are watched.
const GUARD: usize = 32;

/// Room for the longest plaintext, of datagrams that are too long as well.
const ROOM: usize = 70_000;

/// What a datagram led to, by library and rules alike.
pub enum Answer {
    Accepted { session_id: u64, message: Message },
    Refused(u64),
}

/// How many datagrams a session accepted, and how many were repeats.
#[derive(Clone, Copy, Debug, PartialEq, Eq)]
pub struct Counts {
    pub accepted: u64,
    pub repeats: u64,
}

/// The counts of a session that is alive, by the library and by the rules.
pub struct Counted {
    pub session_id: u64,
    pub library: Counts,
    pub rules: Counts,
}

pub struct Receiver {
    key: Key,
    table: Table,
    book: Book,
    out: Vec<u8>,
    payloads: Rc<Payloads>,
    pub meter: Meter,
}

impl Receiver {
    pub fn new(method: Method, seed: u64, payloads: Rc<Payloads>) -> Self {
        Self {
            key: key_of(method, seed),
            table: Table::new(RETENTION).expect("a lawful retention"),
            book: Book::new(RETENTION),
            out: vec![FILL; ROOM],
            payloads,
            meter: Meter::default(),
        }
    }

    /// Opens a datagram, for a server or for the client of a session ID, and holds
    /// what the library does to the rules.
    pub fn receive(
        &mut self,
        arrival: &Arrival,
        clock: u64,
        client_session: Option<u64>,
    ) -> Result<Answer, Disagreement> {
        let datagram = &*arrival.datagram;
        let method = self.key.method();
        let due = datagram.bytes.len().saturating_sub(rules::outside(method));
        let room = if arrival.is_room_short {
            due - 1
        } else {
            due + GUARD
        };
        let call = Call {
            datagram,
            clock,
            peer: arrival.peer,
            method,
            client_session,
            room,
        };
        let verdict = rules::judge(&mut self.book, &call);
        self.out[..due + GUARD].fill(FILL);
        match (self.open(&call), verdict) {
            (Ok(header), Verdict::Accepted) => self.accepted(&header, &datagram.origin, due),
            (Err(refusal), Verdict::Refused(number)) if refusal.number() == number => {
                self.check_refused(number, due)?;
                Ok(Answer::Refused(number))
            }
            (opened, verdict) => disagree(format!(
                "the library {}, the rules {}",
                said(opened.err().map(Refusal::number)),
                said(verdict.number())
            )),
        }
    }

    fn open(&mut self, call: &Call) -> Result<Header, Refusal> {
        let Self {
            key, table, out, ..
        } = self;
        let (clock, peer) = (call.clock, Peer::from(call.peer));
        let bytes = &call.datagram.bytes;
        let out = &mut out[..call.room];
        self.meter
            .measure(bytes.len(), || match call.client_session {
                None => table.open_server(key, clock, peer, bytes, out),
                Some(own) => table.open_client(key, clock, own, peer, bytes, out),
            })
    }

    /// Holds the header and the payload to what was sealed.
    fn accepted(
        &self,
        header: &Header,
        origin: &Origin,
        due: usize,
    ) -> Result<Answer, Disagreement> {
        let is_same = header.session_id == origin.session_id
            && header.packet_id == origin.packet_id
            && header.timestamp == origin.timestamp
            && usize::from(header.padding) == origin.padding
            && header.payload.end == due
            && header.address(&self.out) == *origin.target;
        if !is_same {
            return disagree(format!("{header:?} is not what was sealed"));
        }
        if self.out[due..due + GUARD].iter().any(|&byte| byte != FILL) {
            return disagree("bytes behind the plaintext were written".to_string());
        }
        match self.payloads.read(header.payload(&self.out)) {
            Some(message) if message == origin.message => Ok(Answer::Accepted {
                session_id: header.session_id,
                message,
            }),
            _ => disagree("the payload is not the one that was sealed".to_string()),
        }
    }

    /// Before the tag is good nothing is written, then zeros; never behind the
    /// plaintext.
    fn check_refused(&self, number: u64, due: usize) -> Result<(), Disagreement> {
        let expected = match number {
            rules::LENGTH | rules::ROOM | rules::NOT_AUTHENTIC => FILL,
            _ => 0,
        };
        let (plaintext, behind) = self.out[..due + GUARD].split_at(due);
        if plaintext.iter().all(|&byte| byte == expected) && behind.iter().all(|&byte| byte == FILL)
        {
            return Ok(());
        }
        disagree(format!(
            "refusal {number} left something else in the output"
        ))
    }

    /// Where replies to a session go.
    pub fn peer_of(&self, session_id: u64, clock: u64) -> Option<SocketAddr> {
        self.table.peer_of(session_id, clock).map(SocketAddr::from)
    }

    /// Begins a session in reply to a client's, and holds the library to the rules: an
    /// ID that the client or a page alive has is refused, every other one begins.
    pub fn begin_reply(
        &self,
        id: u64,
        client: u64,
        clock: u64,
    ) -> Result<Option<SealSession>, Disagreement> {
        let is_taken = id == client || self.book.alive(clock).any(|(alive, _)| alive == id);
        match SealSession::server(id, client, clock, &self.table) {
            Ok(session) if !is_taken => Ok(Some(session)),
            Err(Invalid::SessionId { .. }) if is_taken => Ok(None),
            begun => disagree(format!(
                "a reply session of ID {id:016x}: the library {}, and is_taken is {is_taken}",
                said(begun.err().map(|invalid| Refusal::from(invalid).number()))
            )),
        }
    }

    /// Holds the table's sessions to the book's pages, and gives how many there are.
    pub fn compare_sessions(&self, clock: u64) -> Result<usize, Disagreement> {
        let mut pages: HashMap<u64, &Page> = self.book.alive(clock).collect();
        let alive = pages.len();
        for session in self.table.sessions(clock) {
            match pages.remove(&session.id) {
                Some(page) if is_page(&session, page) => {}
                _ => return disagree(format!("{session:?} is not in the book")),
            }
        }
        match pages.keys().next() {
            None => Ok(alive),
            Some(id) => disagree(format!("session {id:016x} is not in the table")),
        }
    }

    /// The counts of the sessions alive, in the order of their IDs.
    pub fn counts(&self, clock: u64) -> Vec<Counted> {
        let pages: HashMap<u64, &Page> = self.book.alive(clock).collect();
        let counted = self.table.sessions(clock).map(|session| Counted {
            session_id: session.id,
            library: of_session(&session),
            rules: of_page(pages[&session.id]),
        });
        let mut counted: Vec<Counted> = counted.collect();
        counted.sort_by_key(|counted| counted.session_id);
        counted
    }

    /// Forgets every session, as no library may.
    #[cfg(test)]
    pub fn lose_table(&mut self) {
        self.table = Table::new(RETENTION).unwrap();
    }
}

/// What was said to a datagram, by the refusal's number.
fn said(refusal: Option<u64>) -> String {
    match refusal {
        None => "accepted it".to_string(),
        Some(number) => format!("refused it with {number}"),
    }
}

fn of_session(session: &Session) -> Counts {
    Counts {
        accepted: session.accepted,
        repeats: session.repeats,
    }
}

fn of_page(page: &Page) -> Counts {
    Counts {
        accepted: page.accepted.len() as u64,
        repeats: page.repeats,
    }
}

fn is_page(session: &Session, page: &Page) -> bool {
    let remembered: Vec<u64> = page.remembered().collect();
    session.highest_packet == page.highest
        && session.last_time == page.last_time
        && SocketAddr::from(session.peer) == page.peer
        && of_session(session) == of_page(page)
        && session.marked_in_window() as usize == remembered.len()
        && remembered
            .iter()
            .all(|&packet_id| session.is_marked(packet_id))
}
