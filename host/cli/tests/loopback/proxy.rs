//! The network between branch and box: a proxy for datagrams that loses, repeats, delays,
//! reorders and damages them, and keeps the book of what reaches the box.

use std::collections::{BTreeMap, HashMap, VecDeque};
use std::net::{Ipv4Addr, SocketAddr, UdpSocket};
use std::sync::atomic::{AtomicBool, Ordering};
use std::sync::{Arc, Condvar, Mutex, MutexGuard};
use std::thread;
use std::time::{Duration, Instant};

use relay::{Clock, Key, MAX_DATAGRAM};

use crate::book::{Book, Opened};
use crate::random::Random;
use crate::weather::{self, Copy, Weather};

/// How often a thread looks whether it is to end.
const LOOK: Duration = Duration::from_millis(500);

/// Between datagrams that are sent in a row, so that no socket's room is too small for them.
const PACE: Duration = Duration::from_millis(1);

/// So many datagrams are kept to be repeated.
const KEPT: usize = 1_000;

type Bytes = Arc<[u8]>;

/// Its threads end soon after it is dropped.
pub struct Proxy {
    pub address: SocketAddr,
    shared: Arc<Shared>,
}

struct Shared {
    key: Key,
    server: SocketAddr,
    front: UdpSocket,
    there: Weather,
    back: Weather,
    is_over: AtomicBool,
    state: Mutex<State>,
    more: Condvar,
}

struct State {
    random: Random,
    /// By when it is due, and in the order in which it came.
    waiting: BTreeMap<(Instant, u64), Waiting>,
    came: u64,
    /// Nothing is delayed any more.
    is_settled: bool,
    /// The socket that stands for each client before the box.
    clients: HashMap<SocketAddr, Arc<UdpSocket>>,
    /// What clients sent last, to be repeated.
    sent: VecDeque<(Arc<UdpSocket>, Bytes, Opened)>,
    traffic: Traffic,
}

/// The proxy's books.
#[derive(Default)]
pub struct Traffic {
    /// Of what reached the box.
    pub book: Book,
    /// How many replies reached the branch, each once or more often.
    pub replies: u64,
    /// What must not happen, in words.
    pub faults: Vec<String>,
}

struct Waiting {
    bytes: Bytes,
    copy: Copy,
    way: Way,
}

enum Way {
    There(Arc<UdpSocket>, Opened),
    /// To a client; the first good copy of a reply is counted.
    Back(SocketAddr, bool),
}

impl Proxy {
    pub fn start(key: Key, server: SocketAddr, there: Weather, back: Weather) -> Self {
        let front = bound();
        let address = front.local_addr().expect("a proxy has an address");
        let shared = Arc::new(Shared {
            key,
            server,
            front,
            there,
            back,
            is_over: AtomicBool::new(false),
            state: Mutex::new(State {
                random: Random::new(2022),
                waiting: BTreeMap::new(),
                came: 0,
                is_settled: false,
                clients: HashMap::new(),
                sent: VecDeque::new(),
                traffic: Traffic::default(),
            }),
            more: Condvar::new(),
        });
        let [receiving, sending] = [Arc::clone(&shared), Arc::clone(&shared)];
        thread::spawn(move || receiving.receive_there());
        thread::spawn(move || sending.send_what_is_due());
        Self { address, shared }
    }

    /// Looks into the books.
    pub fn look<T>(&self, look: impl FnOnce(&Traffic) -> T) -> T {
        look(&self.shared.lock().traffic)
    }

    /// Sends what is on its way now, but for what would come too late, and delays nothing any
    /// more.
    pub fn settle(&self) {
        let mut state = self.shared.lock();
        state.is_settled = true;
        let now = Instant::now();
        let waiting = std::mem::take(&mut state.waiting).into_values();
        let due = waiting.filter(|waiting| !waiting.copy.is_too_late);
        for (place, waiting) in due.enumerate() {
            let came = state.next();
            state
                .waiting
                .insert((now + PACE * place as u32, came), waiting);
        }
        drop(state);
        self.shared.more.notify_all();
        crate::wait::until("the proxy has sent all", || {
            self.shared.lock().waiting.is_empty()
        });
    }

    /// Sends once more what clients sent last, as it was, and tells how much that was.
    pub fn repeat_all(&self) -> u64 {
        let mut state = self.shared.lock();
        let (now, count) = (Instant::now(), state.sent.len() as u64);
        for (place, (socket, bytes, opened)) in state.sent.clone().into_iter().enumerate() {
            let way = Way::There(socket, opened);
            let due = now + PACE * place as u32;
            state.wait(due, bytes, Copy::AT_ONCE, way);
        }
        drop(state);
        self.settle();
        count
    }
}

impl Drop for Proxy {
    fn drop(&mut self) {
        self.shared.is_over.store(true, Ordering::Relaxed);
        self.shared.more.notify_all();
    }
}

impl Shared {
    fn lock(&self) -> MutexGuard<'_, State> {
        self.state.lock().expect("no thread of a proxy panics")
    }

    fn is_over(&self) -> bool {
        self.is_over.load(Ordering::Relaxed)
    }

    /// From clients to the box.
    fn receive_there(self: Arc<Self>) {
        let mut room = vec![0; MAX_DATAGRAM];
        while !self.is_over() {
            if let Ok((length, client)) = self.front.recv_from(&mut room) {
                self.take_there(client, &room[..length]);
            }
        }
    }

    fn take_there(self: &Arc<Self>, client: SocketAddr, datagram: &[u8]) {
        let opened = Opened::new(&self.key, Clock::new().now(), datagram);
        let mut state = self.lock();
        let opened = match opened {
            Ok(opened) => opened,
            Err(fault) => return state.traffic.faults.push(fault),
        };
        let socket = Arc::clone(state.clients.entry(client).or_insert_with(|| {
            let socket = Arc::new(bound());
            let (shared, own) = (Arc::clone(self), Arc::clone(&socket));
            thread::spawn(move || shared.receive_back(&own, client));
            socket
        }));
        let bytes = Bytes::from(datagram);
        state.keep(&socket, &bytes, opened);
        state.carry(self.there, &bytes, |_| {
            Way::There(Arc::clone(&socket), opened)
        });
        self.more.notify_all();
    }

    /// From the box to a client.
    fn receive_back(&self, socket: &UdpSocket, client: SocketAddr) {
        let mut room = vec![0; MAX_DATAGRAM];
        while !self.is_over() {
            match socket.recv_from(&mut room) {
                Ok((length, from)) if from == self.server => {
                    let bytes = Bytes::from(&room[..length]);
                    let mut state = self.lock();
                    state.carry(self.back, &bytes, |is_first| Way::Back(client, is_first));
                    self.more.notify_all();
                }
                _ => {}
            }
        }
    }

    fn send_what_is_due(&self) {
        let mut state = self.lock();
        while !self.is_over() {
            let now = Instant::now();
            let next = state.waiting.first_key_value().map(|((due, _), _)| *due);
            match next {
                Some(due) if due <= now => {
                    if let Some((_, waiting)) = state.waiting.pop_first() {
                        self.send(&mut state.traffic, waiting);
                    }
                }
                _ => {
                    let pause = next.map_or(LOOK, |due| LOOK.min(due - now));
                    let waited = self.more.wait_timeout(state, pause);
                    state = waited.expect("no thread of a proxy panics").0;
                }
            }
        }
    }

    /// Sends a datagram, and notes it while nothing else is sent.
    fn send(&self, traffic: &mut Traffic, waiting: Waiting) {
        let Waiting { bytes, copy, way } = waiting;
        let sent = match way {
            Way::There(socket, opened) => {
                if copy.is_damaged {
                    traffic.book.note_damaged(bytes.len());
                } else {
                    traffic.book.note(opened, copy.is_too_late);
                }
                socket.send_to(&bytes, self.server)
            }
            Way::Back(client, is_first) => {
                traffic.replies += u64::from(is_first);
                self.front.send_to(&bytes, client)
            }
        };
        if let Err(error) = sent {
            traffic
                .faults
                .push(format!("the proxy does not send: {error}"));
        }
    }
}

impl State {
    fn next(&mut self) -> u64 {
        self.came += 1;
        self.came
    }

    fn keep(&mut self, socket: &Arc<UdpSocket>, bytes: &Bytes, opened: Opened) {
        if self.sent.len() == KEPT {
            self.sent.pop_front();
        }
        let (socket, bytes) = (Arc::clone(socket), Arc::clone(bytes));
        self.sent.push_back((socket, bytes, opened));
    }

    fn wait(&mut self, due: Instant, bytes: Bytes, copy: Copy, way: Way) {
        let came = self.next();
        self.waiting
            .insert((due, came), Waiting { bytes, copy, way });
    }

    /// Puts the copies of a datagram on their way. The way is told which is the first good one.
    fn carry(&mut self, weather: Weather, bytes: &Bytes, way: impl Fn(bool) -> Way) {
        let now = Instant::now();
        let mut is_first = true;
        for copy in weather::copies(weather, &mut self.random) {
            let delay = match self.is_settled {
                true if copy.is_too_late => continue,
                true => Duration::ZERO,
                false => copy.delay,
            };
            let bytes = if copy.is_damaged {
                Bytes::from(weather::damaged(bytes, &mut self.random))
            } else {
                Arc::clone(bytes)
            };
            let way = way(is_first && !copy.is_damaged);
            is_first &= copy.is_damaged;
            self.wait(now + delay, bytes, copy, way);
        }
    }
}

/// A socket whose receiver looks now and then whether it is to end.
fn bound() -> UdpSocket {
    let socket = UdpSocket::bind((Ipv4Addr::LOCALHOST, 0)).expect("a proxy is bound");
    socket
        .set_read_timeout(Some(LOOK))
        .expect("a timeout is set");
    socket
}
