//! A relay with a client before it and a target behind it, both of them this thread.

use std::hint;
use std::io;
use std::net::{Ipv4Addr, SocketAddr, UdpSocket};
use std::thread;
use std::time::{Duration, Instant};

use relay::settings::Method;
use relay::{Address, MAX_DATAGRAM};

use super::client::Client;
use super::cores::Cores;
use super::program::{Program, Whose};
use super::Outcome;

/// How long to wait for a datagram, or for a relay to start.
const PATIENCE: Duration = Duration::from_secs(10);

/// How long the generator asks again at once when nothing has come: much longer than a relay
/// takes for a datagram. Then it rests in between, and leaves its processor to others. To yield
/// it at every turn would make the generator come last among them.
const EAGERNESS: Duration = Duration::from_millis(1);
const REST: Duration = Duration::from_micros(100);

/// How long a relay has for a datagram while it starts.
const PAUSE: Duration = Duration::from_millis(10);

/// How often a relay is started that ends by itself: somebody else may have bound its port in
/// between.
const STARTS: usize = 3;

/// The payload of the datagrams that a relay is tried with.
const TRIAL: &[u8] = b"";

/// How far datagrams go.
#[derive(Clone, Copy, Debug, PartialEq, Eq)]
pub enum Way {
    /// From the client to the target.
    There,
    /// From the client to the target, which sends them back.
    Back,
}

impl Way {
    pub const ALL: [Self; 2] = [Self::There, Self::Back];
}

/// Datagrams of one length.
#[derive(Clone, Copy, Debug, PartialEq, Eq)]
pub struct Load {
    /// Of payload.
    pub bytes: usize,
    /// How many make a sample.
    pub datagrams: usize,
    /// How many are on their way at a time: no socket on it has to hold more, and the system
    /// gives each room for these.
    pub window: usize,
}

/// What one sample came to.
pub struct Sample {
    pub seconds: f64,
    /// The processor's time of the relay, if the system tells it.
    pub cpu: Option<f64>,
}

pub struct Course {
    pub whose: Whose,
    pub method: Method,
    program: Program,
    client: Client,
    front: UdpSocket,
    target: UdpSocket,
    at: Address,
    /// Room for what comes in.
    room: Vec<u8>,
}

impl Course {
    /// Starts a relay, and waits until it relays.
    pub fn start(whose: Whose, method: Method, cores: Cores) -> Outcome<Self> {
        let mut starts = 0;
        loop {
            starts += 1;
            let mut course = Self::begin(whose, method, cores)?;
            if course.relays()? {
                return Ok(course);
            }
            if starts == STARTS || !course.program.has_ended() {
                let (name, words) = (whose.name(), course.program.last_words());
                return Err(format!("{name} with {method} does not relay\n{words}").into());
            }
        }
    }

    fn begin(whose: Whose, method: Method, cores: Cores) -> Outcome<Self> {
        let (client, secret) = Client::new(method)?;
        let program = Program::start(whose, cores, method, &secret)?;
        let [front, target] = [socket()?, socket()?];
        front.connect(program.address)?;
        let at = Address::from(target.local_addr()?);
        Ok(Self {
            whose,
            method,
            program,
            client,
            front,
            target,
            at,
            room: vec![0; MAX_DATAGRAM],
        })
    }

    /// Whether a datagram comes through before the patience ends.
    fn relays(&mut self) -> Outcome<bool> {
        let begun = Instant::now();
        while begun.elapsed() < PATIENCE && !self.program.has_ended() {
            let sealed = self.client.seal(&self.at, TRIAL)?;
            // Refused as long as nobody listens.
            let _ = self.front.send(&sealed);
            thread::sleep(PAUSE);
            if received(&self.target, &mut self.room)?.is_some() {
                return Ok(true);
            }
        }
        Ok(false)
    }

    /// Seals datagrams, sends them through the relay and opens what comes back.
    pub fn sample(&mut self, load: Load, way: Way) -> Outcome<Sample> {
        let payload: Vec<u8> = (0..load.bytes).map(|index| (index % 251) as u8).collect();
        let seal = |_| self.client.seal(&self.at, &payload);
        let sealed: Vec<_> = (0..load.datagrams).map(seal).collect::<Outcome<_>>()?;
        let mut replies = Vec::with_capacity(load.datagrams);
        let (before, begun) = (self.program.cpu(), Instant::now());
        self.pass(&sealed, load.window, |course| match way {
            Way::There => course.arrives(&payload),
            Way::Back => course.comes_back(&payload, &mut replies),
        })?;
        let (seconds, after) = (begun.elapsed().as_secs_f64(), self.program.cpu());
        let cpu = after.zip(before).map(|(after, before)| after - before);
        self.open_all(&replies, &payload)?;
        Ok(Sample { seconds, cpu })
    }

    /// Sends datagrams, each behind the first ones when another has arrived.
    fn pass(
        &mut self,
        sealed: &[Vec<u8>],
        window: usize,
        mut has_arrived: impl FnMut(&mut Self) -> Outcome<bool>,
    ) -> Outcome<()> {
        let (mut sent, mut arrived, mut heard) = (0, 0, Instant::now());
        while arrived < sealed.len() {
            while sent < sealed.len() && sent - arrived < window {
                self.front.send(&sealed[sent])?;
                sent += 1;
            }
            if has_arrived(self)? {
                (arrived, heard) = (arrived + 1, Instant::now());
                continue;
            }
            match heard.elapsed() {
                silence if silence < EAGERNESS => hint::spin_loop(),
                silence if silence < PATIENCE => thread::sleep(REST),
                _ => return Err(self.blamed(&format!("{arrived} of {sent} datagrams arrive"))),
            }
        }
        Ok(())
    }

    /// Whether a datagram has come to the target.
    fn arrives(&mut self, payload: &[u8]) -> Outcome<bool> {
        let arrived = received(&self.target, &mut self.room)?;
        self.judge(arrived.map(|(length, _)| length), payload)
    }

    /// Sends back what has come to the target. Whether a reply has come to the client, which is
    /// opened later.
    fn comes_back(&mut self, payload: &[u8], replies: &mut Vec<Vec<u8>>) -> Outcome<bool> {
        let arrived = received(&self.target, &mut self.room)?;
        if self.judge(arrived.map(|(length, _)| length), payload)? {
            if let Some((length, from)) = arrived {
                self.target.send_to(&self.room[..length], from)?;
            }
        }
        let reply = received(&self.front, &mut self.room)?;
        replies.extend(reply.map(|(length, _)| self.room[..length].to_vec()));
        Ok(reply.is_some())
    }

    /// Whether there is a datagram. It has to be what was sent; a trial may come late.
    fn judge(&self, length: Option<usize>, payload: &[u8]) -> Outcome<bool> {
        match length.map(|length| &self.room[..length]) {
            None | Some(TRIAL) => Ok(false),
            Some(arrived) if arrived == payload => Ok(true),
            Some(_) => Err(self.blamed("another payload arrives")),
        }
    }

    fn open_all(&mut self, replies: &[Vec<u8>], payload: &[u8]) -> Outcome<()> {
        for reply in replies {
            if self.client.open(self.program.address, reply)? != payload {
                return Err(self.blamed("another payload comes back"));
            }
        }
        Ok(())
    }

    fn blamed(&self, what: &str) -> Box<dyn std::error::Error> {
        format!("{} with {}: {what}", self.whose.name(), self.method).into()
    }
}

/// A socket that is asked again and again: one that waits would have to be woken by the relay,
/// in the relay's time.
fn socket() -> io::Result<UdpSocket> {
    let socket = UdpSocket::bind((Ipv4Addr::LOCALHOST, 0))?;
    socket.set_nonblocking(true)?;
    Ok(socket)
}

/// How long the next datagram is, and who sent it, if there is one.
fn received(socket: &UdpSocket, room: &mut [u8]) -> io::Result<Option<(usize, SocketAddr)>> {
    match socket.recv_from(room) {
        Ok(received) => Ok(Some(received)),
        Err(error) if error.kind() == io::ErrorKind::WouldBlock => Ok(None),
        Err(error) => Err(error),
    }
}
