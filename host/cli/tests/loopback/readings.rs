//! Readings, and the book of those that arrived at one end.

use std::collections::{BTreeMap, BTreeSet};
use std::net::{Ipv4Addr, SocketAddr, UdpSocket};
use std::sync::{Arc, LazyLock, Mutex};

use crate::payload::{Message, Payloads};
use crate::target::{send_back, Target};

/// What every reading's payload is made and recognised by.
pub static PAYLOADS: LazyLock<Payloads> = LazyLock::new(|| Payloads::new(2022));

/// A movement is measured idle and then loaded: a series for each.
pub fn told(reading: Message) -> String {
    let (movement, number) = (reading.series / 2, reading.number);
    let load = if reading.series % 2 == 0 {
        "idle"
    } else {
        "loaded"
    };
    format!("reading {number} of movement {movement} {load}")
}

/// What arrived at one end, by the port that tells sessions apart there.
#[derive(Default)]
pub struct Arrivals {
    /// The series whose readings a port has.
    pub ports: BTreeMap<u16, u16>,
    pub readings: BTreeSet<Message>,
    /// What must not happen, in words.
    pub faults: Vec<String>,
}

impl Arrivals {
    pub fn note(&mut self, port: u16, payload: &[u8]) {
        let Some(reading) = PAYLOADS.read(payload) else {
            let length = payload.len();
            self.faults.push(format!("{length} bytes are no reading"));
            return;
        };
        let series = *self.ports.entry(port).or_insert(reading.series);
        if series != reading.series {
            let (movement, reading) = (series / 2, told(reading));
            self.faults.push(format!(
                "{reading} is in series {series} of movement {movement}"
            ));
        }
        if !self.readings.insert(reading) {
            self.faults
                .push(format!("{} is there twice", told(reading)));
        }
    }

    /// Each reading arrived once at most, and in its own series.
    pub fn assert_sound(&self, end: &str) {
        let (count, first) = (self.faults.len(), self.faults.first());
        assert!(
            first.is_none(),
            "{count} faults at {end}, the first: {first:?}"
        );
    }
}

/// No reading, but what tells the target of another box.
const ANOTHER_BOX: &[u8] = b"another box";

/// A target that notes what comes by the port that it comes from, and sends it back.
pub struct Counting {
    target: Target,
    arrivals: Arc<Mutex<Arrivals>>,
}

impl Counting {
    pub fn new() -> Self {
        let arrivals = Arc::new(Mutex::new(Arrivals::default()));
        let noted = Arc::clone(&arrivals);
        let socket = UdpSocket::bind((Ipv4Addr::LOCALHOST, 0)).expect("a target is bound");
        let target = Target::datagrams(socket, move |socket, from, payload| {
            let Ok(mut arrivals) = noted.lock() else {
                return;
            };
            if payload == ANOTHER_BOX {
                arrivals.ports.clear();
            } else {
                arrivals.note(from.port(), payload);
                send_back(socket, from, payload);
            }
        });
        Self { target, arrivals }
    }

    /// The box has ended, and another one may have its ports for other sessions. The target is
    /// told behind all that the box has sent to it.
    pub fn expect_another_box(&self) {
        let socket = UdpSocket::bind((Ipv4Addr::LOCALHOST, 0)).expect("a socket is bound");
        let told = socket.send_to(ANOTHER_BOX, self.target.address);
        told.expect("the target is told");
    }

    pub fn address(&self) -> SocketAddr {
        self.target.address
    }

    /// Looks at what has arrived, which has to be sound.
    pub fn look<T>(&self, end: &str, look: impl FnOnce(&Arrivals) -> T) -> T {
        let arrivals = self.arrivals.lock().expect("nobody panics with the book");
        arrivals.assert_sound(end);
        look(&arrivals)
    }
}
