//! Names of targets, looked up beside the datagrams that do not wait for them.

use std::io;
use std::net::{SocketAddr, ToSocketAddrs};
use std::sync::mpsc::{sync_channel, Receiver, SyncSender};
use std::sync::{Arc, Mutex};

use relay::{Address, Clock};

use super::back::Back;
use super::datagrams::Dropped;
use super::{lock, start};

/// How many names are remembered, and for how many seconds.
const NAMES: usize = 64;
const KEPT: u64 = 60;

/// How many datagrams wait for their target's name.
const WAITING: usize = 64;

/// A datagram that waits for its target's name.
struct Waiting {
    target: Address,
    back: Arc<Back>,
    bytes: Vec<u8>,
}

struct Known {
    target: Address,
    at: SocketAddr,
    since: u64,
}

/// What is known of names, and who looks them up.
pub struct Names {
    known: Arc<Mutex<Vec<Known>>>,
    waiting: SyncSender<Waiting>,
    clock: Arc<Clock>,
}

impl Names {
    /// Starts the thread that looks names up. What it cannot send is told to `lost`.
    pub fn start(clock: Arc<Clock>, lost: impl Fn(Dropped) + Send + 'static) -> io::Result<Self> {
        let (waiting, taken) = sync_channel(WAITING);
        let known = Arc::new(Mutex::new(Vec::with_capacity(NAMES)));
        let names = Self {
            known: Arc::clone(&known),
            waiting,
            clock: Arc::clone(&clock),
        };
        start("names", move || look_up(&taken, &known, &clock, lost))?;
        Ok(names)
    }

    /// Sends a datagram to its target, at once where the address is known.
    pub fn send(&self, back: &Arc<Back>, target: &Address, bytes: &[u8]) -> Result<(), Dropped> {
        let now = self.clock.now();
        let at = target
            .socket_addr()
            .or_else(|| find(&self.known, target, now));
        match at {
            Some(at) => back.send(at, bytes).map_err(|_| Dropped::NotSent),
            None => {
                let waiting = Waiting {
                    target: target.clone(),
                    back: Arc::clone(back),
                    bytes: bytes.to_vec(),
                };
                let given = self.waiting.try_send(waiting);
                given.map_err(|_| Dropped::Unresolved)
            }
        }
    }
}

fn find(known: &Mutex<Vec<Known>>, target: &Address, now: u64) -> Option<SocketAddr> {
    let known = lock(known);
    let fresh = |entry: &&Known| entry.target == *target && now - entry.since.min(now) <= KEPT;
    known.iter().find(fresh).map(|entry| entry.at)
}

fn look_up(
    taken: &Receiver<Waiting>,
    known: &Mutex<Vec<Known>>,
    clock: &Clock,
    lost: impl Fn(Dropped),
) {
    while let Ok(waiting) = taken.recv() {
        // One that waited behind it for the same name finds it known.
        let at = find(known, &waiting.target, clock.now()).or_else(|| {
            let at = resolve(&waiting.target).ok()?;
            remember(known, waiting.target.clone(), at, clock.now());
            Some(at)
        });
        match at {
            Some(at) if waiting.back.send(at, &waiting.bytes).is_ok() => {}
            Some(_) => lost(Dropped::NotSent),
            None => lost(Dropped::Unresolved),
        }
    }
}

/// Puts the newest in front and leaves out what is old.
fn remember(known: &Mutex<Vec<Known>>, target: Address, at: SocketAddr, since: u64) {
    let mut known = lock(known);
    known.retain(|entry| entry.target != target);
    known.truncate(NAMES - 1);
    known.insert(0, Known { target, at, since });
}

/// Where datagrams to an address go: IPv4 where a name has both.
fn resolve(address: &Address) -> io::Result<SocketAddr> {
    let found = resolve_all(address)?;
    let v4 = found.iter().find(|at| at.is_ipv4());
    let at = v4.or(found.first()).copied();
    at.ok_or_else(|| io::Error::new(io::ErrorKind::NotFound, "the name has no address"))
}

/// Asks the system where an address is.
pub fn resolve_all(address: &Address) -> io::Result<Vec<SocketAddr>> {
    if let Some(at) = address.socket_addr() {
        return Ok(vec![at]);
    }
    let name = address
        .host_name()
        .and_then(|name| std::str::from_utf8(name).ok());
    let name = name.ok_or_else(|| io::Error::new(io::ErrorKind::InvalidInput, "no host's name"))?;
    (name, address.port())
        .to_socket_addrs()
        .map(Iterator::collect)
}
