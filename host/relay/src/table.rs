//! Session tables.

use std::fmt;

use crate::ffi::{self, TableWords};
use crate::session::{Session, RECORD_WORDS};
use crate::{Header, Invalid, Key, Peer, Refusal};

/// How many sessions a table can hold.
pub(crate) const SESSIONS: usize = 64;

/// What a receiver remembers of the sessions that send to it: which packet IDs it
/// accepted, when, and from where, and how many repeats it refused.
///
/// A table serves one key. A server has one for its clients' datagrams, a client
/// one for its server's. It holds 64 sessions; a session is forgotten when nothing
/// of it was accepted for longer than the retention.
///
/// [`Replay`](Refusal::Replay) counts one more repeat in its session, and no other
/// refusal changes the table.
///
/// ```
/// use std::net::SocketAddr;
/// use relay::{Address, Key, Method, Peer, Refusal, SealSession, Table};
///
/// let key = Key::new(Method::Aes128Gcm, &[0x4b; 16])?;
/// let target = Address::name(b"example.com", 443)?;
/// let caller = Peer::from(SocketAddr::from(([192, 0, 2, 1], 4000)));
///
/// let mut sealed = [0; 128];
/// let length = SealSession::client(7).seal(&key, None, 1_000, &target, 0, b"hello", &mut sealed)?;
///
/// let mut table = Table::new(60)?;
/// let mut plaintext = [0; 128];
/// let header = table.open_server(&key, 1_001, caller, &sealed[..length], &mut plaintext)?;
/// assert_eq!(header.payload(&plaintext), b"hello");
/// assert_eq!(table.peer_of(7, 1_001), Some(caller));
///
/// // The same datagram is not accepted again.
/// let again = table.open_server(&key, 1_002, caller, &sealed[..length], &mut plaintext);
/// assert_eq!(again, Err(Refusal::Replay));
/// let session = table.sessions(1_002).next().unwrap();
/// assert_eq!((session.accepted, session.repeats), (1, 1));
/// # Ok::<(), Refusal>(())
/// ```
pub struct Table {
    words: Box<TableWords>,
}

impl Table {
    /// The number of words that a table is.
    pub const WORDS: usize = 1 + SESSIONS * RECORD_WORDS;

    /// Makes a table without sessions that remembers a silent session for
    /// `retention` seconds: 60 to 3,600, or 0 for the library's own choice, 300.
    ///
    /// # Errors
    ///
    /// [`Invalid::Retention`] for any other retention.
    pub fn new(retention: u64) -> Result<Self, Invalid> {
        let mut words = Box::new([0; Self::WORDS]);
        // The table has its length, so the library can refuse the retention alone.
        ffi::table_new(retention, &mut words)
            .map(|()| Self { words })
            .map_err(|_| Invalid::Retention { seconds: retention })
    }

    /// Opens a client's datagram, for a server.
    ///
    /// `clock` is in seconds since 1970 and must not go back between calls. `peer`
    /// is where the datagram came from; it is kept in the session for replies. The
    /// plaintext, as long as the datagram less its method's
    /// [`datagram_overhead`](crate::Method::datagram_overhead), goes to the front of `out`;
    /// bytes behind it are not written.
    ///
    /// # Errors
    ///
    /// The first that applies: [`Settings`](Refusal::Settings),
    /// [`Length`](Refusal::Length), [`Room`](Refusal::Room),
    /// [`NotAuthentic`](Refusal::NotAuthentic), [`Malformed`](Refusal::Malformed)
    /// (plaintext under 11 bytes, with ChaCha under 27), [`Type`](Refusal::Type),
    /// [`Time`](Refusal::Time), [`Malformed`](Refusal::Malformed) (padding, address),
    /// [`Replay`](Refusal::Replay), [`Full`](Refusal::Full). [`Replay`](Refusal::Replay)
    /// counts one more repeat in its session; all others leave the table as it was. The
    /// first four leave `out` as it was; the others, which come after the tag was found
    /// good, set the bytes of the plaintext to zero.
    pub fn open_server(
        &mut self,
        key: &Key,
        clock: u64,
        peer: Peer,
        datagram: &[u8],
        out: &mut [u8],
    ) -> Result<Header, Refusal> {
        ffi::datagram_open_server(key, clock, peer, datagram, &mut self.words, out)
            .map(|answer| Header::from_library(&answer, plaintext_len(key, datagram)))
    }

    /// Opens a server's datagram, for the client of session ID `client`. Everything
    /// else is as in [`open_server`](Table::open_server).
    ///
    /// # Errors
    ///
    /// As [`open_server`](Table::open_server), but a plaintext is too short under 19
    /// bytes, with ChaCha under 35, and behind [`Time`](Refusal::Time) comes
    /// [`Binding`](Refusal::Binding): the datagram names another client session.
    pub fn open_client(
        &mut self,
        key: &Key,
        clock: u64,
        client: u64,
        peer: Peer,
        datagram: &[u8],
        out: &mut [u8],
    ) -> Result<Header, Refusal> {
        ffi::datagram_open_client(key, clock, client, peer, datagram, &mut self.words, out)
            .map(|answer| Header::from_library(&answer, plaintext_len(key, datagram)))
    }

    /// How many seconds a silent session is remembered.
    pub fn retention(&self) -> u64 {
        self.words[0]
    }

    /// The sessions that are alive at a clock, in no order that means anything.
    ///
    /// Words from elsewhere may hold two alive records of one ID. Then the first
    /// one counts, here as in the openers.
    pub fn sessions(&self, clock: u64) -> impl Iterator<Item = Session> + '_ {
        let mut seen = Vec::new();
        self.alive(clock).filter(move |session| {
            let is_first = !seen.contains(&session.id);
            seen.push(session.id);
            is_first
        })
    }

    /// Shows the sessions that are alive at a clock: how many there are, and a line
    /// for each.
    ///
    /// ```
    /// # use std::net::SocketAddr;
    /// # use relay::{Address, Key, Method, Peer, Refusal, SealSession, Table};
    /// # let key = Key::new(Method::Aes128Gcm, &[0x4b; 16])?;
    /// # let target = Address::name(b"example.com", 443)?;
    /// # let caller = Peer::from(SocketAddr::from(([192, 0, 2, 1], 4000)));
    /// # let mut sealed = [0; 128];
    /// # let length = SealSession::client(7).seal(&key, None, 1_000, &target, 0, b"hello", &mut sealed)?;
    /// # let mut table = Table::new(60)?;
    /// # table.open_server(&key, 1_001, caller, &sealed[..length], &mut [0; 128])?;
    /// assert_eq!(
    ///     table.display(1_010).to_string(),
    ///     "1 of 64 sessions alive at 1010, retention 60 seconds\n\
    ///      0000000000000007 from 192.0.2.1:4000, last at 1001, highest packet 0, 1 of 256 marked, \
    ///      1 accepted, 0 repeats"
    /// );
    /// # Ok::<(), Refusal>(())
    /// ```
    pub fn display(&self, clock: u64) -> impl fmt::Display + '_ {
        Display { table: self, clock }
    }

    /// The session of an ID, if it is alive at a clock.
    pub fn session(&self, id: u64, clock: u64) -> Option<Session> {
        self.alive(clock).find(|session| session.id == id)
    }

    /// Where to send replies to a session that is alive at a clock.
    pub fn peer_of(&self, session_id: u64, clock: u64) -> Option<Peer> {
        self.session(session_id, clock).map(|session| session.peer)
    }

    /// What every record shows that is alive at a clock.
    fn alive(&self, clock: u64) -> impl Iterator<Item = Session> + '_ {
        let records = self.words[1..].chunks_exact(RECORD_WORDS);
        records.filter_map(move |record| Session::alive(record, self.retention(), clock))
    }

    /// The table as words, to be stored: the retention, and 64 records of 13.
    ///
    /// A host that restores an older copy than its last accepted datagram accepts
    /// the datagrams in between a second time.
    pub fn words(&self) -> &[u64; Self::WORDS] {
        &self.words
    }

    /// The table that the words are.
    ///
    /// Any words have a meaning: faulty ones lead to refusals or to other sessions.
    /// A first word outside 60 to 3,600 makes every call [`Refusal::Settings`].
    pub fn from_words(words: &[u64; Self::WORDS]) -> Self {
        Self {
            words: Box::new(*words),
        }
    }
}

/// How long the plaintext of a datagram is that was opened.
fn plaintext_len(key: &Key, datagram: &[u8]) -> usize {
    datagram.len() - key.method().datagram_overhead()
}

/// A table's sessions at a clock.
struct Display<'a> {
    table: &'a Table,
    clock: u64,
}

impl fmt::Display for Display<'_> {
    fn fmt(&self, f: &mut fmt::Formatter<'_>) -> fmt::Result {
        let sessions: Vec<Session> = self.table.sessions(self.clock).collect();
        let (alive, clock, retention) = (sessions.len(), self.clock, self.table.retention());
        write!(
            f,
            "{alive} of {SESSIONS} sessions alive at {clock}, retention {retention} seconds"
        )?;
        sessions
            .iter()
            .try_for_each(|session| write!(f, "\n{session}"))
    }
}

impl fmt::Debug for Table {
    fn fmt(&self, f: &mut fmt::Formatter<'_>) -> fmt::Result {
        f.debug_struct("Table")
            .field("retention", &self.retention())
            .finish_non_exhaustive()
    }
}
