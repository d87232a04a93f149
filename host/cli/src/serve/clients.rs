//! Clients of the box that send datagrams of Shadowsocks 2022.

use std::net::SocketAddr;

use relay::{Address, Key, Peer, Replies, Table};

use super::state::Keeper;
use crate::random::Random;
use crate::relaying::datagrams::{Dropped, Ends, Inward, Outward};

/// The sessions of the clients, and those that reply to them.
pub struct Clients {
    pub key: Key,
    pub table: Table,
    pub replies: Replies,
    pub keeper: Option<Keeper>,
    pub random: Random,
    /// The only target that may be asked for.
    pub target: Option<Address>,
    /// The most bytes of a reply's datagram.
    pub limit: usize,
    /// Before this clock nothing is accepted.
    pub from: u64,
}

/// The address that a client asks for, if it may.
pub fn allowed(only: Option<&Address>, asked: Address) -> Option<Address> {
    only.is_none_or(|only| *only == asked).then_some(asked)
}

impl Clients {
    /// Keeps the table over a restart, before anything of a datagram is handed on.
    fn keep(&mut self, clock: u64) -> Result<(), Dropped> {
        let kept = self
            .keeper
            .as_mut()
            .map(|keeper| keeper.keep(clock, self.table.words()));
        kept.unwrap_or(Ok(())).map_err(|_| Dropped::NotSent)
    }
}

impl Ends for Clients {
    /// The client's session ID.
    type Id = u64;

    fn inward(
        &mut self,
        clock: u64,
        from: SocketAddr,
        datagram: &[u8],
        out: &mut [u8],
    ) -> Result<Inward<u64>, Dropped> {
        if clock < self.from {
            return Err(Dropped::TooEarly);
        }
        let peer = Peer::from(from);
        let header = self
            .table
            .open_server(&self.key, clock, peer, datagram, out)?;
        self.keep(clock)?;
        let id = header.session_id;
        // A session that began with this datagram has accepted no other.
        let session = self.table.session(id, clock);
        let is_new = session.is_some_and(|session| session.accepted == 1);
        if is_new {
            self.replies.renew(id);
        }
        Ok(Inward {
            id,
            is_new,
            to: allowed(self.target.as_ref(), header.address(out)),
            bytes: header.payload,
        })
    }

    fn outward(
        &mut self,
        clock: u64,
        id: u64,
        from: SocketAddr,
        datagram: &[u8],
        out: &mut [u8],
    ) -> Result<Outward, Dropped> {
        let source = Address::from(from);
        let (key, table, random) = (&self.key, &self.table, &mut self.random);
        let sealed = self
            .replies
            .seal(key, table, clock, id, &source, datagram, random, out)
            .map_err(Dropped::unsealed)?;
        let (length, peer) = sealed.ok_or(Dropped::Forgotten)?;
        if length > self.limit {
            return Err(Dropped::TooLong);
        }
        Ok(Outward {
            to: SocketAddr::from(peer),
            bytes: 0..length,
        })
    }

    fn is_alive(&self, clock: u64, id: u64) -> bool {
        self.table.session(id, clock).is_some()
    }
}
