//! Sending sessions.

use crate::answer;
use crate::ffi::{self, SessionWords};
use crate::{Address, Invalid, Key, Method, Nonce, Refusal, Table, MAX_DATAGRAM};

/// Bytes of a main header before its padding: type, time and the padding's length. A
/// server's also has the client session ID.
const CLIENT_HEADER: usize = 11;
const SERVER_HEADER: usize = 19;

/// Word 0 of a server's session; it is 0 for a client's.
const SERVER: u64 = 1;

/// A sending session, which seals datagrams.
///
/// Each datagram sealed takes the next packet ID, from 0 on. Under one key a session ID
/// and a packet ID must never be sealed twice together. With AES they give the subkey and
/// the nonce, and two texts under one nonce can be read and forged; with ChaCha the nonce
/// is the host's, and the second datagram is lost as a replay. So a session cannot be
/// copied, and its ID must be random and new, among those of clients and servers alike.
///
/// ```
/// use relay::{Address, Key, Method, SealSession};
///
/// let key = Key::new(Method::Aes128Gcm, &[0x4b; 16])?;
/// let target = Address::name(b"a", 80)?;
/// let mut session = SealSession::client(0x0102_0304_0506_0708);
/// let mut out = [0; 64];
/// let length = session.seal(&key, None, 1_000, &target, 0, b"", &mut out)?;
/// assert_eq!(length, 48);
/// assert_eq!(session.next_packet(), 1);
/// # Ok::<(), relay::Refusal>(())
/// ```
///
/// With a method that takes a nonce, and written for any of them:
///
/// ```
/// use relay::{Address, Key, Method, Nonce, SealSession};
///
/// # let random = || [0x77; Nonce::LENGTH];
/// let key = Key::new(Method::ChaCha20Poly1305, &[0x4b; 32])?;
/// let target = Address::name(b"a", 80)?;
/// let mut session = SealSession::client(0x0102_0304_0506_0708);
/// let mut out = [0; 128];
/// let nonce = key.method().takes_nonce().then(|| Nonce::new(random()));
/// let length = session.seal(&key, nonce, 1_000, &target, 0, b"", &mut out)?;
/// assert_eq!(length, 72);
/// # Ok::<(), relay::Refusal>(())
/// ```
#[derive(Debug)]
pub struct SealSession {
    words: SessionWords,
}

impl SealSession {
    /// The number of words that a session is.
    pub const WORDS: usize = 4;

    /// Begins a client's session of an ID, which is to be random.
    pub fn client(id: u64) -> Self {
        let words = ffi::session_begin_client(id).expect("a client's session takes any ID");
        Self { words }
    }

    /// Begins a server's session of an ID, which is to be random, in reply to a
    /// client's session. `table` is that of the clients' datagrams, as it is now.
    ///
    /// The ID must differ from every other session ID under the key, those of all
    /// clients included. It is compared with `client` and with every session that is
    /// alive in the table: draw another where it is refused. A client that comes later
    /// with the ID is accepted, and the IDs of sessions that the host began itself are
    /// known to the host alone.
    ///
    /// ```
    /// use relay::{Invalid, SealSession, Table};
    ///
    /// # let (clients, client, clock) = (Table::new(60)?, 7, 1_000);
    /// # let mut drawn = [7, 8].into_iter();
    /// # let mut random = || drawn.next().unwrap();
    /// let session = loop {
    ///     match SealSession::server(random(), client, clock, &clients) {
    ///         Err(Invalid::SessionId { .. }) => continue,
    ///         begun => break begun?,
    ///     }
    /// };
    /// # assert_eq!(session.id(), 8);
    /// # Ok::<(), Invalid>(())
    /// ```
    ///
    /// # Errors
    ///
    /// [`Invalid::TableRetention`] if the table came from words whose retention is not
    /// lawful; else [`Invalid::SessionId`] if the client or a session alive has the ID.
    pub fn server(id: u64, client: u64, clock: u64, table: &Table) -> Result<Self, Invalid> {
        ffi::session_begin_server(id, client, clock, table.words())
            .map(|words| Self { words })
            .map_err(|refusal| match refusal {
                Refusal::Settings => Invalid::TableRetention {
                    seconds: table.retention(),
                },
                _ => Invalid::SessionId { id },
            })
    }

    /// Seals one datagram to the front of `out` and gives its length.
    ///
    /// The methods that take a nonce ([`takes_nonce`](Method::takes_nonce)) are given one
    /// that was drawn at random for this call; for the others it is `None`, and what is
    /// given is not looked at. `clock` is in seconds since 1970 and becomes the timestamp. From a client
    /// `address` is the target, from a server the source. `padding` bytes of zeros
    /// are put before it. The payload may be empty.
    ///
    /// # Errors
    ///
    /// The first that applies: [`Settings`](Refusal::Settings) (no nonce where the method
    /// takes one; words from elsewhere that are no session),
    /// [`Argument`](Refusal::Argument) (words in which a server has its client's ID),
    /// [`Counter`](Refusal::Counter) (the next packet ID is 2^64 - 1),
    /// [`Length`](Refusal::Length) (over 65,507 bytes), [`Room`](Refusal::Room). A refusal
    /// writes nothing and takes no packet ID; the nonce is gone with it.
    // The arguments are C's; a struct of them would be the same list under other names.
    #[allow(clippy::too_many_arguments)]
    pub fn seal(
        &mut self,
        key: &Key,
        nonce: Option<Nonce>,
        clock: u64,
        address: &Address,
        padding: usize,
        payload: &[u8],
        out: &mut [u8],
    ) -> Result<usize, Refusal> {
        ffi::datagram_seal(
            key,
            nonce.as_ref().map_or(&[], Nonce::as_bytes),
            &mut self.words,
            clock,
            address.as_bytes(),
            padding,
            payload,
            out,
        )
        .map(|answer| answer::length(answer[0]))
    }

    /// How long a datagram of a method would be.
    ///
    /// # Errors
    ///
    /// [`Refusal::Length`] if it would be longer than 65,507 bytes.
    pub fn sealed_len(
        &self,
        method: Method,
        address: &Address,
        padding: usize,
        payload_len: usize,
    ) -> Result<usize, Refusal> {
        let header = match self.client_id() {
            None => CLIENT_HEADER,
            Some(_) => SERVER_HEADER,
        };
        (method.around_main_header() + header + address.as_bytes().len())
            .checked_add(padding)
            .and_then(|length| length.checked_add(payload_len))
            .filter(|&length| length <= MAX_DATAGRAM)
            .ok_or(Refusal::Length)
    }

    /// The session's ID.
    pub fn id(&self) -> u64 {
        self.words[1]
    }

    /// The ID of the client's session that a server's replies to.
    pub fn client_id(&self) -> Option<u64> {
        (self.words[0] == SERVER).then_some(self.words[2])
    }

    /// The packet ID of the next datagram.
    pub fn next_packet(&self) -> u64 {
        self.words[3]
    }

    /// Whether the packet IDs are used up: sealing is then [`Refusal::Counter`].
    pub fn is_used_up(&self) -> bool {
        self.next_packet() == u64::MAX
    }

    /// The session as words, to be stored: 0 for a client's or 1 for a server's, its
    /// ID, the client's ID or 0, the next packet ID.
    ///
    /// A host that restores older words than those of its last datagram seals a
    /// packet ID twice. With AES that breaks the encryption of both datagrams.
    pub fn words(&self) -> &[u64; Self::WORDS] {
        &self.words
    }

    /// The session that the words are. Any words may be given: with those that are
    /// no session, sealing is [`Refusal::Settings`].
    pub fn from_words(words: &[u64; Self::WORDS]) -> Self {
        Self { words: *words }
    }
}
