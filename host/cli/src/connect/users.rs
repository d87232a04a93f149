//! Local senders of datagrams, each with a session of its own.

use std::io;
use std::net::SocketAddr;

use relay::{Address, Key, Nonce, Peer, Refusal, SealSession, Table};

use crate::random::Random;
use crate::relaying::datagrams::{Dropped, Ends, Inward, Outward};
use crate::relaying::senders::Senders;

/// A local sender's session, and the table of the server's sessions that reply to it. They have
/// room in a table of their own, however often the server is started again.
pub struct User {
    session: SealSession,
    table: Table,
}

impl User {
    fn begin(random: &mut Random, retention: u64) -> io::Result<Self> {
        Ok(Self {
            session: SealSession::client(random.word()?),
            table: Table::new(retention).map_err(Refusal::from)?,
        })
    }
}

/// The local senders.
pub struct Users {
    pub key: Key,
    pub users: Senders<User>,
    pub random: Random,
    pub server: Address,
    pub target: Address,
    /// The most bytes of a sealed datagram.
    pub limit: usize,
}

impl Users {
    fn seal(
        &mut self,
        clock: u64,
        from: SocketAddr,
        payload: &[u8],
        out: &mut [u8],
    ) -> Result<usize, Dropped> {
        let takes_nonce = self.key.method().takes_nonce();
        let nonce = takes_nonce.then(|| self.random.array().map(Nonce::new));
        let nonce = nonce.transpose()?;
        let User { session, .. } = self.users.find(clock, from).ok_or(Dropped::Forgotten)?;
        if session.is_used_up() {
            *session = SealSession::client(self.random.word()?);
        }
        let sealed = session.seal(&self.key, nonce, clock, &self.target, 0, payload, out);
        match sealed.map_err(Dropped::unsealed)? {
            length if length > self.limit => Err(Dropped::TooLong),
            length => Ok(length),
        }
    }
}

impl Ends for Users {
    /// Where the user sends from.
    type Id = SocketAddr;

    fn inward(
        &mut self,
        clock: u64,
        from: SocketAddr,
        datagram: &[u8],
        out: &mut [u8],
    ) -> Result<Inward<SocketAddr>, Dropped> {
        let (random, retention) = (&mut self.random, self.users.retention());
        let begin = || User::begin(random, retention);
        let is_new = self.users.hear(clock, from, begin)?;
        let length = self.seal(clock, from, datagram, out)?;
        Ok(Inward {
            id: from,
            is_new,
            to: Some(self.server.clone()),
            bytes: 0..length,
        })
    }

    fn outward(
        &mut self,
        clock: u64,
        id: SocketAddr,
        from: SocketAddr,
        datagram: &[u8],
        out: &mut [u8],
    ) -> Result<Outward, Dropped> {
        let User { session, table } = self.users.find(clock, id).ok_or(Dropped::Forgotten)?;
        let (client, peer) = (session.id(), Peer::from(from));
        let opened = table.open_client(&self.key, clock, client, peer, datagram, out);
        Ok(Outward {
            to: id,
            bytes: opened?.payload,
        })
    }

    fn is_alive(&self, clock: u64, id: SocketAddr) -> bool {
        self.users.is_alive(clock, id)
    }
}
