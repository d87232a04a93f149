//! What a running box tells of itself: a snapshot in words of 64 bits, big-endian.
//!
//! The session table goes as the words that it is, so `sessions` reads it as the library does.
//! No key is in it.

use std::io::{self, Read};

use relay::settings::Method;
use relay::Table;

/// "bhajst01": what a snapshot begins with.
const MAGIC: u64 = u64::from_be_bytes(*b"bhajst01");

/// More services than any box has, and the longest address in words.
const MOST_SERVICES: u64 = 1_024;
const LONGEST_TEXT: u64 = 1_024;

/// How many refusals there are; 0 counts what was accepted.
pub const REFUSALS: usize = 16;

/// What happened to the datagrams of a service since the box started.
#[derive(Clone, Debug, Default, PartialEq, Eq)]
pub struct Counters {
    /// By the library's answer: accepted, and refusals 1 to 15.
    pub answers: [u64; REFUSALS],
    /// Sent on to a target.
    pub forwarded: u64,
    /// Sent back to a client.
    pub replied: u64,
    /// The target's name was not resolved, or too many were waiting for it.
    pub unresolved: u64,
    /// The target is not the one that clients may ask for, or a reply came from elsewhere.
    pub not_allowed: u64,
    /// Longer than the path limit, or than a datagram can be.
    pub too_long: u64,
    /// Came while the box could not know yet what it had accepted before it was started.
    pub too_early: u64,
    /// The system did not send it.
    pub not_sent: u64,
    /// Streams that were begun, and those that a refusal ended.
    pub streams: u64,
    pub streams_refused: u64,
}

impl Counters {
    const WORDS: usize = REFUSALS + 9;

    fn words(&self) -> [u64; Self::WORDS] {
        let mut words = [0; Self::WORDS];
        words[..REFUSALS].copy_from_slice(&self.answers);
        words[REFUSALS..].copy_from_slice(&[
            self.forwarded,
            self.replied,
            self.unresolved,
            self.not_allowed,
            self.too_long,
            self.too_early,
            self.not_sent,
            self.streams,
            self.streams_refused,
        ]);
        words
    }

    fn from_words(words: &[u64; Self::WORDS]) -> Self {
        let [.., forwarded, replied, unresolved, not_allowed, too_long, too_early, not_sent, streams, streams_refused] =
            *words;
        Self {
            answers: std::array::from_fn(|number| words[number]),
            forwarded,
            replied,
            unresolved,
            not_allowed,
            too_long,
            too_early,
            not_sent,
            streams,
            streams_refused,
        }
    }
}

/// One service of a box.
#[derive(Debug)]
pub struct Service {
    /// Where it listens.
    pub listening: String,
    pub method: Method,
    pub counters: Counters,
    /// Its session table; the 2017 edition has none.
    pub table: Option<Table>,
}

/// A box at one moment.
#[derive(Debug)]
pub struct Snapshot {
    /// The box's clock.
    pub clock: u64,
    /// Its clock when it started.
    pub started: u64,
    /// How many datagrams have not been recorded, as the recorder could not keep up.
    pub not_recorded: u64,
    pub services: Vec<Service>,
}

impl Snapshot {
    pub fn to_bytes(&self) -> Vec<u8> {
        let front = [MAGIC, self.clock, self.started, self.not_recorded];
        let mut words = front.to_vec();
        words.push(self.services.len() as u64);
        for service in &self.services {
            let text = service.listening.as_bytes();
            words.push(text.len() as u64);
            words.extend(text.chunks(8).map(word_of));
            words.push(service.method.number());
            words.extend(service.counters.words());
            match &service.table {
                Some(table) => words.extend(table.words()),
                None => words.extend([0; Table::WORDS]),
            }
        }
        words.into_iter().flat_map(u64::to_be_bytes).collect()
    }

    /// Reads a snapshot to its end.
    pub fn read(source: &mut impl Read) -> io::Result<Self> {
        let mut words = Words(source);
        if words.next()? != MAGIC {
            return Err(invalid("no snapshot of a box"));
        }
        let (clock, started, not_recorded) = (words.next()?, words.next()?, words.next()?);
        let count = words.next()?;
        if count > MOST_SERVICES {
            return Err(invalid("too many services"));
        }
        let services = (0..count).map(|_| read_service(&mut words));
        Ok(Self {
            clock,
            started,
            not_recorded,
            services: services.collect::<io::Result<_>>()?,
        })
    }
}

fn read_service(words: &mut Words<impl Read>) -> io::Result<Service> {
    let length = words.next()?;
    if length > LONGEST_TEXT {
        return Err(invalid("an address that is too long"));
    }
    let mut text = Vec::new();
    for _ in 0..length.div_ceil(8) {
        text.extend(words.next()?.to_be_bytes());
    }
    text.truncate(length as usize);
    let method = Method::from_number(words.next()?);
    let method = method.ok_or_else(|| invalid("an unknown method"))?;
    let counters = Counters::from_words(&words.array()?);
    let table = Table::from_words(&words.array()?);
    Ok(Service {
        listening: String::from_utf8_lossy(&text).into_owned(),
        method,
        counters,
        table: matches!(method, Method::Sip022(_)).then_some(table),
    })
}

/// Up to 8 bytes as a word, zeros behind them.
fn word_of(bytes: &[u8]) -> u64 {
    let mut word = [0; 8];
    word[..bytes.len()].copy_from_slice(bytes);
    u64::from_be_bytes(word)
}

struct Words<'a, R>(&'a mut R);

impl<R: Read> Words<'_, R> {
    fn next(&mut self) -> io::Result<u64> {
        let mut word = [0; 8];
        self.0.read_exact(&mut word)?;
        Ok(u64::from_be_bytes(word))
    }

    fn array<const LENGTH: usize>(&mut self) -> io::Result<[u64; LENGTH]> {
        let mut words = [0; LENGTH];
        for word in &mut words {
            *word = self.next()?;
        }
        Ok(words)
    }
}

fn invalid(message: &str) -> io::Error {
    io::Error::new(io::ErrorKind::InvalidData, message)
}

#[cfg(test)]
mod tests {
    use relay::{sip004, Table};

    use super::{Counters, Service, Snapshot};

    fn counters() -> Counters {
        Counters {
            answers: std::array::from_fn(|number| number as u64),
            streams_refused: 9,
            ..Counters::default()
        }
    }

    fn words() -> [u64; Table::WORDS] {
        let mut words = [0; Table::WORDS];
        (words[0], words[832]) = (60, 7);
        words
    }

    fn snapshot() -> Snapshot {
        let newer = Service {
            listening: "127.0.0.1:8388".to_string(),
            method: relay::Method::Aes128Gcm.into(),
            counters: counters(),
            table: Some(Table::from_words(&words())),
        };
        let older = Service {
            listening: "[::]:8389".to_string(),
            method: sip004::Method::Aes256Gcm.into(),
            counters: Counters::default(),
            table: None,
        };
        Snapshot {
            clock: 1_000,
            started: 900,
            not_recorded: 3,
            services: vec![newer, older],
        }
    }

    #[test]
    fn a_snapshot_is_read_back() {
        let bytes = snapshot().to_bytes();
        let read = Snapshot::read(&mut &bytes[..]).unwrap();
        let front = (read.clock, read.started, read.not_recorded);
        assert_eq!(front, (1_000, 900, 3));
        let [newer, older] = &read.services[..] else {
            panic!("two services");
        };
        assert_eq!(newer.listening, "127.0.0.1:8388");
        assert_eq!(newer.counters, counters());
        assert_eq!(newer.table.as_ref().unwrap().words(), &words());
        assert_eq!(older.method, sip004::Method::Aes256Gcm.into());
        assert!(older.table.is_none());
        for length in [0, 8, bytes.len() - 1] {
            assert!(Snapshot::read(&mut &bytes[..length]).is_err());
        }
    }
}
