//! Recorded datagrams opened again: whose they are, whether the library takes them, and what
//! they carry.

mod pairs;

pub use pairs::{pairs, same_series, Pair};

use relay::recording::Entry;
use relay::{Header, Invalid, Key, Peer, Refusal, Table, MAX_DATAGRAM};

/// What the library says of an entry.
#[derive(Clone, Debug, PartialEq, Eq)]
pub struct Opened {
    /// The client session, where the datagram is authentic and of its time.
    pub session: Option<u64>,
    /// What it carries, or why it is refused: a repeat has a session nevertheless.
    pub payload: Result<Vec<u8>, Refusal>,
}

/// The direction from the box to a client.
const REPLY: u8 = 1;

/// The longest retention, so that a session lasts as long as a recording.
const RETENTION: u64 = 3_600;

/// A recording does not say where a datagram came from.
const NOWHERE: Peer = Peer {
    first: 0,
    second: 0,
    port: 0,
};

/// The entries of two recordings, in order.
pub fn open(recordings: [&[Entry]; 2], key: &Key) -> Result<[Vec<Opened>; 2], Invalid> {
    let mut opener = Opener {
        key,
        plaintext: vec![0; MAX_DATAGRAM],
        clients: Vec::new(),
    };
    // All clients first: a reply may be recorded before what its client sends.
    let entries = recordings.into_iter().flatten();
    for entry in entries.filter(|entry| entry.direction != REPLY) {
        let client = opener.sender(entry)?;
        opener
            .clients
            .extend(client.filter(|id| !opener.clients.contains(id)));
    }
    let [first, second] = recordings;
    Ok([opener.open(first)?, opener.open(second)?])
}

struct Opener<'a> {
    key: &'a Key,
    plaintext: Vec<u8>,
    /// The client sessions, as they come.
    clients: Vec<u64>,
}

impl Opener<'_> {
    /// A table for the whole recording tells repeats. What it says depends on all before, so
    /// whose a datagram is, is asked of a table of its own.
    fn open(&mut self, entries: &[Entry]) -> Result<Vec<Opened>, Invalid> {
        let mut box_table = Table::new(RETENTION)?;
        let tables = self.clients.iter().map(|_| Table::new(RETENTION));
        let mut client_tables = tables.collect::<Result<Vec<_>, _>>()?;
        let mut all = Vec::with_capacity(entries.len());
        for entry in entries {
            all.push(match entry.direction {
                REPLY => self.reply(&mut client_tables, entry)?,
                _ => {
                    let session = self.sender(entry)?;
                    let header = self.open_request(&mut box_table, entry);
                    self.opened(session, header)
                }
            });
        }
        Ok(all)
    }

    /// What the client that a reply is for would say of it.
    fn reply(&mut self, tables: &mut [Table], entry: &Entry) -> Result<Opened, Invalid> {
        let Some(place) = self.receiver(entry)? else {
            // Whoever it is for: the refusal tells what is wrong with it.
            let mut table = Table::new(RETENTION)?;
            let header = self.open_reply(&mut table, 0, entry);
            return Ok(self.opened(None, header));
        };
        let client = self.clients[place];
        let header = self.open_reply(&mut tables[place], client, entry);
        Ok(self.opened(Some(client), header))
    }

    /// Right after the opening that gave the header, whose plaintext is still there.
    fn opened(&self, session: Option<u64>, header: Result<Header, Refusal>) -> Opened {
        let payload = header.map(|header| header.payload(&self.plaintext).to_vec());
        Opened { session, payload }
    }

    fn open_request(&mut self, table: &mut Table, entry: &Entry) -> Result<Header, Refusal> {
        let (key, out) = (self.key, &mut self.plaintext);
        table.open_server(key, entry.clock, NOWHERE, entry.body, out)
    }

    fn open_reply(
        &mut self,
        table: &mut Table,
        client: u64,
        entry: &Entry,
    ) -> Result<Header, Refusal> {
        let (key, out) = (self.key, &mut self.plaintext);
        table.open_client(key, entry.clock, client, NOWHERE, entry.body, out)
    }

    /// The client session that sent an entry.
    fn sender(&mut self, entry: &Entry) -> Result<Option<u64>, Invalid> {
        let mut table = Table::new(RETENTION)?;
        let header = self.open_request(&mut table, entry).ok();
        Ok(header.map(|header| header.session_id))
    }

    /// Which client an entry was sent to.
    fn receiver(&mut self, entry: &Entry) -> Result<Option<usize>, Invalid> {
        for place in 0..self.clients.len() {
            let mut table = Table::new(RETENTION)?;
            match self.open_reply(&mut table, self.clients[place], entry) {
                Ok(_) => return Ok(Some(place)),
                Err(Refusal::Binding) => {}
                // No other client changes this.
                Err(_) => return Ok(None),
            }
        }
        Ok(None)
    }
}
