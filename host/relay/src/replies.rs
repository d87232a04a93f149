//! Replies of a server to its clients.

use std::io::{self, Read};

use crate::table::SESSIONS;
use crate::{Address, Invalid, Key, Nonce, Peer, Refusal, SealSession, Table};

/// How often an ID is drawn. At most 127 of 2^64 are taken: who draws one of them so often
/// does not draw at random.
const DRAWS: usize = 8;

/// The reply sessions of a server, one for each client's session that it has replied to.
///
/// There are as many as a [`Table`] has sessions at most, and room for all of them is made
/// at the start. One `Replies` goes with one key and one table, that of the clients'
/// datagrams.
///
/// ```
/// use std::net::SocketAddr;
/// use relay::{Address, Key, Method, Peer, Replies, SealSession, Table};
///
/// # let mut random = &[7; 100][..];
/// let key = Key::new(Method::ChaCha20Poly1305, &[0x4b; 32])?;
/// # let nonce = Some(relay::Nonce::new([1; 24]));
/// let (mut clients, mut replies) = (Table::new(60)?, Replies::new());
/// let caller = Peer::from(SocketAddr::from(([192, 0, 2, 1], 4000)));
/// let target: Address = "198.51.100.7:53".parse()?;
/// let (mut datagram, mut plaintext) = ([0; 1_500], [0; 1_500]);
///
/// // A client's datagram comes in.
/// let mut client = SealSession::client(0x1f2e_3d4c_5b6a_7988);
/// let length = client.seal(&key, nonce, 1_000, &target, 0, b"question", &mut datagram)?;
/// let header = clients.open_server(&key, 1_000, caller, &datagram[..length], &mut plaintext)?;
/// if clients.session(header.session_id, 1_000).is_some_and(|session| session.accepted == 1) {
///     replies.renew(header.session_id);
/// }
///
/// // Its target answers, and the answer goes to where the client was heard last.
/// let sealed = replies.seal(
///     &key,
///     &clients,
///     1_001,
///     header.session_id,
///     &target,
///     b"answer",
///     &mut random, // of the system
///     &mut datagram,
/// )?;
/// let (length, peer) = sealed.ok_or("the client is forgotten")?;
/// assert_eq!(peer, caller);
///
/// let mut servers = Table::new(60)?;
/// let header =
///     servers.open_client(&key, 1_001, client.id(), peer, &datagram[..length], &mut plaintext)?;
/// assert_eq!(header.payload(&plaintext), b"answer");
/// # Ok::<(), Box<dyn std::error::Error>>(())
/// ```
#[derive(Debug)]
pub struct Replies {
    /// At most one for each client's session.
    sessions: Vec<SealSession>,
}

impl Default for Replies {
    fn default() -> Self {
        Self::new()
    }
}

impl Replies {
    /// Without sessions.
    pub fn new() -> Self {
        Self {
            sessions: Vec::with_capacity(SESSIONS),
        }
    }

    /// Seals a reply to a client's session to the front of `out`, and gives its length and
    /// where it is to go. `None` if the session is not alive in the table of the `clients`:
    /// nobody waits for the reply.
    ///
    /// `source` is where the payload came from. `random` gives the IDs of sessions, and a
    /// nonce for each reply where the method takes one: its bytes are to be random.
    ///
    /// The reply session is begun with the first reply, under an ID that no client alive and
    /// no other reply session has. It is begun anew when its packet IDs are used up, and when
    /// a client came that has its ID: with AES an ID and a packet ID are one nonce under the
    /// key, whoever seals with them.
    ///
    /// # Errors
    ///
    /// Those of `random`, and [`io::ErrorKind::Other`] if it repeats itself; as refusals
    /// ([`io::refusal`](crate::io::refusal)) those of [`SealSession::seal`] but
    /// [`Counter`](Refusal::Counter), and [`Settings`](Refusal::Settings) for a table of an
    /// unlawful retention.
    // As SealSession::seal has them; table and random bytes come on top.
    #[allow(clippy::too_many_arguments)]
    pub fn seal(
        &mut self,
        key: &Key,
        clients: &Table,
        clock: u64,
        client: u64,
        source: &Address,
        payload: &[u8],
        random: &mut impl Read,
        out: &mut [u8],
    ) -> io::Result<Option<(usize, Peer)>> {
        let Some(peer) = clients.peer_of(client, clock) else {
            return Ok(None);
        };
        let place = self.place(clients, clock, client, random)?;
        let nonce = key.method().takes_nonce().then(|| draw(random));
        let nonce = nonce.transpose()?.map(Nonce::new);
        let session = &mut self.sessions[place];
        let length = session.seal(key, nonce, clock, source, 0, payload, out)?;
        Ok(Some((length, peer)))
    }

    /// Drops the reply session of a client's session that begins, or begins anew once the
    /// table has forgotten it, and one that has this client's ID. The next reply begins
    /// another.
    ///
    /// A host calls it behind the datagram with which a session begins: its
    /// [`accepted`](crate::Session::accepted) is 1. So an ID is given up even if its client
    /// is forgotten before the next reply.
    pub fn renew(&mut self, client: u64) {
        self.sessions
            .retain(|session| session.client_id() != Some(client) && session.id() != client);
    }

    /// Drops the reply sessions whose client's session is not alive.
    pub fn forget(&mut self, clients: &Table, clock: u64) {
        let is_alive = |client| clients.session(client, clock).is_some();
        self.sessions
            .retain(|s| s.client_id().is_some_and(is_alive));
    }

    /// The place of a session that may seal the next reply to a client who is alive.
    fn place(
        &mut self,
        clients: &Table,
        clock: u64,
        client: u64,
        random: &mut impl Read,
    ) -> io::Result<usize> {
        let mut sessions = self.sessions.iter();
        if let Some(place) = sessions.position(|s| s.client_id() == Some(client)) {
            let session = &self.sessions[place];
            if session.is_used_up() || clients.session(session.id(), clock).is_some() {
                self.sessions[place] = self.begin(clients, clock, client, random)?;
            }
            return Ok(place);
        }
        let session = self.begin(clients, clock, client, random)?;
        if self.sessions.len() == SESSIONS {
            // The client is alive and has none, so others have one and are not.
            self.forget(clients, clock);
        }
        self.sessions.push(session);
        Ok(self.sessions.len() - 1)
    }

    /// Draws IDs until one is nobody's.
    fn begin(
        &self,
        clients: &Table,
        clock: u64,
        client: u64,
        random: &mut impl Read,
    ) -> io::Result<SealSession> {
        for _ in 0..DRAWS {
            let id = u64::from_be_bytes(draw(random)?);
            match SealSession::server(id, client, clock, clients) {
                Ok(session) if self.sessions.iter().all(|s| s.id() != id) => return Ok(session),
                Ok(_) | Err(Invalid::SessionId { .. }) => {}
                Err(invalid) => return Err(Refusal::from(invalid).into()),
            }
        }
        Err(io::Error::other("the random bytes repeat themselves"))
    }
}

fn draw<const N: usize>(random: &mut impl Read) -> io::Result<[u8; N]> {
    let mut bytes = [0; N];
    random.read_exact(&mut bytes)?;
    Ok(bytes)
}

#[cfg(test)]
mod tests {
    use super::Replies;
    use crate::table::SESSIONS;
    use crate::{Address, Key, Method, Peer, SealSession, Table};

    /// Seals replies to client 1, who is alone in the table, and gives the words of all
    /// sessions behind each.
    fn replied(replies: &mut Replies, times: usize) -> Vec<Vec<[u64; SealSession::WORDS]>> {
        let key = Key::new(Method::Aes128Gcm, &[0x4b; 16]).unwrap();
        let (address, mut out) = (Address::name(b"a", 80).unwrap(), [0; 128]);
        let mut client = SealSession::client(1);
        let length = client.seal(&key, None, 0, &address, 0, b"", &mut out);
        let (mut clients, datagram) = (Table::new(60).unwrap(), &out[..length.unwrap()]);
        let peer = Peer {
            first: 0,
            second: 1,
            port: 4_000,
        };
        let opened = clients.open_server(&key, 0, peer, datagram, &mut [0; 128]);
        assert!(opened.is_ok());
        let mut random = &[7; 8][..];
        let reply = |_| {
            let sealed = replies.seal(&key, &clients, 0, 1, &address, b"", &mut random, &mut out);
            assert!(sealed.unwrap().is_some());
            replies.sessions.iter().map(|s| *s.words()).collect()
        };
        (0..times).map(reply).collect()
    }

    #[test]
    fn a_session_that_is_used_up_is_begun_anew() {
        let mut replies = Replies::new();
        let last = SealSession::from_words(&[1, 100, 1, u64::MAX - 1]);
        replies.sessions.push(last);
        let expected = [[1, 100, 1, u64::MAX], [1, 0x0707_0707_0707_0707, 1, 1]];
        assert_eq!(replied(&mut replies, 2), expected.map(|words| vec![words]));
    }

    #[test]
    fn there_are_never_more_than_the_table_has() {
        let mut replies = Replies::new();
        let room = replies.sessions.capacity();
        let gone = |id| SealSession::from_words(&[1, 100 + id, 2 + id, 0]);
        replies.sessions.extend((0..SESSIONS as u64).map(gone));
        let expected = vec![[1, 0x0707_0707_0707_0707, 1, 1]];
        assert_eq!(replied(&mut replies, 1), [expected]);
        assert_eq!(replies.sessions.capacity(), room);
    }
}
