//! Datagrams between a front socket, where all senders come to, and a back for each of them.
//!
//! One thread reads the front. Each back is read by one of 64 threads, which are started with
//! the service and wait at their stations until a sender begins.

use std::io;
use std::net::{SocketAddr, UdpSocket};
use std::ops::Range;
use std::sync::{Arc, Mutex};

use relay::{Address, Clock, Refusal, MAX_DATAGRAM};

use super::address::{canonical, mapped};
use super::back::Back;
use super::names::Names;
use super::station::Station;
use super::{lock, rest, start};
use crate::serve::recorder::{Direction, Recorder};
use crate::status::Counters;

/// As many senders as a session table has room for.
pub const SENDERS: usize = 64;

/// A datagram of UDP fits, and one byte more would show.
const ROOM: usize = MAX_DATAGRAM + 1;

/// What an end makes of datagrams. Both ends of both editions are such.
pub trait Ends: Send + 'static {
    /// Who sends: a session, or a local sender.
    type Id: Copy + Eq + Send;

    /// A datagram has come to the front.
    fn inward(
        &mut self,
        clock: u64,
        from: SocketAddr,
        datagram: &[u8],
        out: &mut [u8],
    ) -> Result<Inward<Self::Id>, Dropped>;

    /// A datagram has come back for a sender.
    fn outward(
        &mut self,
        clock: u64,
        id: Self::Id,
        from: SocketAddr,
        datagram: &[u8],
        out: &mut [u8],
    ) -> Result<Outward, Dropped>;

    /// Whether a sender is remembered.
    fn is_alive(&self, clock: u64, id: Self::Id) -> bool;
}

/// What goes on to the back.
pub struct Inward<Id> {
    pub id: Id,
    /// The sender has begun with this datagram.
    pub is_new: bool,
    /// Where it is to go, if the sender may ask for that.
    pub to: Option<Address>,
    /// The place of its bytes in the output buffer.
    pub bytes: Range<usize>,
}

/// What goes back to a sender.
pub struct Outward {
    pub to: SocketAddr,
    /// The place of its bytes in the output buffer.
    pub bytes: Range<usize>,
}

/// Why a datagram goes no further.
#[derive(Debug)]
pub enum Dropped {
    /// The library refuses it.
    Refused(Refusal),
    /// Its sender was forgotten.
    Forgotten,
    /// The target may not be asked for, or has not been asked.
    NotAllowed,
    /// It is longer than the path takes.
    TooLong,
    /// The box does not know yet what it accepted before it was started.
    TooEarly,
    /// The target's name is not resolved, or too many wait for theirs.
    Unresolved,
    /// The host has an error.
    NotSent,
}

impl Dropped {
    /// Why a datagram was not sealed: the library's refusals count what comes in.
    pub fn unsealed(error: impl Into<Self>) -> Self {
        match error.into() {
            Self::Refused(Refusal::Length) => Self::TooLong,
            other => other,
        }
    }
}

impl From<Refusal> for Dropped {
    fn from(refusal: Refusal) -> Self {
        Self::Refused(refusal)
    }
}

/// An error of the host, or a refusal that came as one.
impl From<io::Error> for Dropped {
    fn from(error: io::Error) -> Self {
        relay::io::refusal(&error).map_or(Self::NotSent, Self::Refused)
    }
}

impl Counters {
    fn count(&mut self, dropped: &Dropped) {
        let counter = match dropped {
            Dropped::Refused(refusal) => &mut self.answers[refusal.number() as usize],
            Dropped::Forgotten | Dropped::NotAllowed => &mut self.not_allowed,
            Dropped::TooLong => &mut self.too_long,
            Dropped::TooEarly => &mut self.too_early,
            Dropped::Unresolved => &mut self.unresolved,
            Dropped::NotSent => &mut self.not_sent,
        };
        *counter += 1;
    }
}

/// The work of a thread that reads a back.
struct Work<Id> {
    id: Id,
    back: Arc<Back>,
}

/// The sender that a station's thread reads for.
struct Place<Id> {
    sender: Option<(Id, Arc<Back>)>,
    station: Arc<Station<Work<Id>>>,
}

/// Datagrams of one service.
pub struct Datagrams<E: Ends> {
    front: UdpSocket,
    is_v6: bool,
    clock: Arc<Clock>,
    ends: Arc<Mutex<E>>,
    places: Mutex<Vec<Place<E::Id>>>,
    names: Names,
    counters: Arc<Mutex<Counters>>,
    recorder: Option<Arc<Recorder>>,
}

impl<E: Ends> Datagrams<E> {
    /// Starts all threads of a service.
    pub fn start(
        front: UdpSocket,
        clock: Arc<Clock>,
        ends: Arc<Mutex<E>>,
        counters: Arc<Mutex<Counters>>,
        recorder: Option<Arc<Recorder>>,
    ) -> io::Result<()> {
        let lost = Arc::clone(&counters);
        let names = Names::start(Arc::clone(&clock), move |dropped| {
            lock(&lost).count(&dropped);
        })?;
        let stations: Vec<_> = (0..SENDERS).map(|_| Arc::new(Station::new())).collect();
        let places = stations.iter().map(|station| Place {
            sender: None,
            station: Arc::clone(station),
        });
        let service = Arc::new(Self {
            is_v6: front.local_addr()?.is_ipv6(),
            front,
            clock,
            ends,
            places: Mutex::new(places.collect()),
            names,
            counters,
            recorder,
        });
        for station in stations {
            let service = Arc::clone(&service);
            start("back", move || service.read_backs(&station))?;
        }
        start("front", move || service.read_front())
    }

    fn read_front(&self) {
        let (mut datagram, mut out) = (vec![0; ROOM], vec![0; ROOM]);
        loop {
            match self.front.recv_from(&mut datagram) {
                Ok((length, from)) => {
                    self.take(canonical(from), &datagram[..length], &mut out);
                }
                Err(_) => rest(),
            }
        }
    }

    /// Takes a datagram from the front to its target.
    fn take(&self, from: SocketAddr, datagram: &[u8], out: &mut [u8]) {
        let clock = self.clock.now();
        self.record(clock, Direction::FromSender, datagram);
        let inward = lock(&self.ends).inward(clock, from, datagram, out);
        let is_accepted = inward.is_ok();
        let sent = inward.and_then(|inward| self.send_on(inward, clock, out));
        let mut counters = lock(&self.counters);
        counters.answers[0] += u64::from(is_accepted);
        match sent {
            Ok(()) => counters.forwarded += 1,
            Err(dropped) => counters.count(&dropped),
        }
    }

    fn send_on(&self, inward: Inward<E::Id>, clock: u64, out: &[u8]) -> Result<(), Dropped> {
        // Also for a target that may not be asked for: a session that began anew has no part in
        // what was sent back to the one before.
        let back = self.back_of(&inward, clock)?;
        let to = inward.to.ok_or(Dropped::NotAllowed)?;
        self.names.send(&back, &to, &out[inward.bytes])
    }

    /// The back of a sender, opened where it has begun.
    fn back_of(&self, inward: &Inward<E::Id>, clock: u64) -> Result<Arc<Back>, Dropped> {
        let mut places = lock(&self.places);
        let own = places.iter().position(|place| place.is_of(inward.id));
        if let (Some(own), false) = (own, inward.is_new) {
            if let Some((_, back)) = &places[own].sender {
                return Ok(Arc::clone(back));
            }
        }
        let place = own
            .or_else(|| places.iter().position(|place| place.sender.is_none()))
            .or_else(|| self.forgotten(&places, clock))
            .ok_or(Dropped::Refused(Refusal::Full))?;
        let back = Arc::new(Back::open().map_err(|_| Dropped::NotSent)?);
        places[place].begin(inward.id, &back);
        Ok(back)
    }

    /// A place whose sender is not remembered any more.
    fn forgotten(&self, places: &[Place<E::Id>], clock: u64) -> Option<usize> {
        let ends = lock(&self.ends);
        let is_gone = |place: &Place<E::Id>| match &place.sender {
            Some((id, _)) => !ends.is_alive(clock, *id),
            None => true,
        };
        places.iter().position(is_gone)
    }

    fn read_backs(&self, station: &Station<Work<E::Id>>) {
        let (mut datagram, mut out) = (vec![0; ROOM], vec![0; ROOM]);
        loop {
            let work = station.take();
            while !work.back.is_closed() {
                match work.back.receive(&mut datagram) {
                    // A closed back is woken by a datagram that is not a reply.
                    Ok(_) if work.back.is_closed() => {}
                    Ok((length, from)) => {
                        self.bring_back(&work, from, &datagram[..length], &mut out);
                    }
                    Err(error) if is_timeout(&error) => self.close_if_forgotten(&work),
                    Err(_) => rest(),
                }
            }
        }
    }

    /// Brings a reply to its sender.
    fn bring_back(&self, work: &Work<E::Id>, from: SocketAddr, datagram: &[u8], out: &mut [u8]) {
        let clock = self.clock.now();
        let outward = if work.back.may_answer(from) {
            lock(&self.ends).outward(clock, work.id, from, datagram, out)
        } else {
            Err(Dropped::NotAllowed)
        };
        let sent = outward.and_then(|outward| {
            let bytes = &out[outward.bytes];
            self.record(clock, Direction::ToSender, bytes);
            self.send_front(outward.to, bytes)
                .map_err(|_| Dropped::NotSent)
        });
        let mut counters = lock(&self.counters);
        match sent {
            Ok(()) => counters.replied += 1,
            Err(dropped) => counters.count(&dropped),
        }
    }

    fn send_front(&self, to: SocketAddr, bytes: &[u8]) -> io::Result<()> {
        let to = if self.is_v6 { mapped(to) } else { to };
        self.front.send_to(bytes, to).map(drop)
    }

    fn close_if_forgotten(&self, work: &Work<E::Id>) {
        if lock(&self.ends).is_alive(self.clock.now(), work.id) {
            return;
        }
        work.back.close();
        let mut places = lock(&self.places);
        for place in places.iter_mut() {
            if matches!(&place.sender, Some((_, back)) if Arc::ptr_eq(back, &work.back)) {
                place.sender = None;
            }
        }
    }

    fn record(&self, clock: u64, direction: Direction, datagram: &[u8]) {
        if let Some(recorder) = &self.recorder {
            recorder.record(clock, direction, datagram);
        }
    }
}

impl<Id: Copy + Eq> Place<Id> {
    fn is_of(&self, id: Id) -> bool {
        matches!(&self.sender, Some((own, _)) if *own == id)
    }

    fn begin(&mut self, id: Id, back: &Arc<Back>) {
        if let Some((_, old)) = self.sender.replace((id, Arc::clone(back))) {
            old.close();
        }
        self.station.give(Work {
            id,
            back: Arc::clone(back),
        });
    }
}

/// The system calls a timeout another thing.
pub fn is_timeout(error: &io::Error) -> bool {
    matches!(
        error.kind(),
        io::ErrorKind::WouldBlock | io::ErrorKind::TimedOut
    )
}
