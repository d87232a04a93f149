//! The client's end, whose datagrams are sealed and opened by the library, outside the time.

use std::fs::File;
use std::io::{self, Read};
use std::net::SocketAddr;

use relay::settings::Method;
use relay::sip004;
use relay::{Address, Clock, Key, Nonce, Peer, SealSession, Table, MAX_DATAGRAM};

use super::Outcome;

/// In seconds, as long as the library's own choice.
const RETENTION: u64 = 0;

enum Edition {
    Sip022 {
        key: Key,
        session: SealSession,
        /// Of the relay's replies.
        table: Table,
    },
    Sip004(sip004::Key),
}

pub struct Client {
    edition: Edition,
    clock: Clock,
    random: File,
    out: Vec<u8>,
}

impl Client {
    /// With a key drawn at random, which is handed out too.
    pub fn new(method: Method) -> Outcome<(Self, Vec<u8>)> {
        let mut random = File::open("/dev/urandom")?;
        let mut secret = vec![0; method.key_len()];
        random.read_exact(&mut secret)?;
        let edition = match method {
            Method::Sip022(method) => Edition::Sip022 {
                key: Key::new(method, &secret)?,
                session: SealSession::client(u64::from_be_bytes(drawn(&mut random)?)),
                table: Table::new(RETENTION)?,
            },
            Method::Sip004(method) => Edition::Sip004(sip004::Key::new(method, &secret)?),
        };
        let client = Self {
            edition,
            clock: Clock::new(),
            random,
            out: vec![0; MAX_DATAGRAM],
        };
        Ok((client, secret))
    }

    /// A datagram that was never sealed before.
    pub fn seal(&mut self, target: &Address, payload: &[u8]) -> Outcome<Vec<u8>> {
        let out = &mut self.out;
        let length = match &mut self.edition {
            Edition::Sip022 { key, session, .. } => {
                let nonce = match key.method().takes_nonce() {
                    true => Some(Nonce::new(drawn(&mut self.random)?)),
                    false => None,
                };
                session.seal(key, nonce, self.clock.now(), target, 0, payload, out)?
            }
            Edition::Sip004(key) => {
                let salt: [u8; 32] = drawn(&mut self.random)?;
                let salt = &salt[..key.method().salt_len()];
                let text = [target.as_bytes(), payload].concat();
                sip004::seal_datagram(key, salt, &text, out)?
            }
        };
        Ok(out[..length].to_vec())
    }

    /// The payload of a relay's reply.
    pub fn open(&mut self, relay: SocketAddr, datagram: &[u8]) -> Outcome<&[u8]> {
        let out = &mut self.out;
        match &mut self.edition {
            Edition::Sip022 {
                key,
                session,
                table,
            } => {
                let (clock, peer) = (self.clock.now(), Peer::from(relay));
                let header = table.open_client(key, clock, session.id(), peer, datagram, out)?;
                Ok(header.payload(out))
            }
            Edition::Sip004(key) => {
                let length = sip004::open_datagram(key, datagram, out)?;
                let split = Address::split(&out[..length])?;
                let (_, payload) = split.ok_or("a reply has no whole address")?;
                Ok(payload)
            }
        }
    }
}

fn drawn<const LENGTH: usize>(random: &mut File) -> io::Result<[u8; LENGTH]> {
    let mut bytes = [0; LENGTH];
    random.read_exact(&mut bytes)?;
    Ok(bytes)
}
