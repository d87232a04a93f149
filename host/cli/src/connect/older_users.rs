//! Local senders of datagrams, with the 2017 edition.

use std::net::SocketAddr;

use relay::Address;

use crate::relaying::datagrams::{Dropped, Ends, Inward, Outward};
use crate::relaying::older::Older;
use crate::relaying::senders::Senders;

pub struct OlderUsers {
    pub older: Older,
    pub users: Senders<()>,
    pub server: Address,
    pub target: Address,
}

impl Ends for OlderUsers {
    /// Where the user sends from.
    type Id = SocketAddr;

    fn inward(
        &mut self,
        clock: u64,
        from: SocketAddr,
        datagram: &[u8],
        out: &mut [u8],
    ) -> Result<Inward<SocketAddr>, Dropped> {
        let is_new = self.users.hear(clock, from, || Ok(()))?;
        let length = self.older.seal(&self.target, datagram, out)?;
        Ok(Inward {
            id: from,
            is_new,
            to: Some(self.server.clone()),
            bytes: 0..length,
        })
    }

    fn outward(
        &mut self,
        clock: u64,
        id: SocketAddr,
        _: SocketAddr,
        datagram: &[u8],
        out: &mut [u8],
    ) -> Result<Outward, Dropped> {
        self.users.find(clock, id).ok_or(Dropped::Forgotten)?;
        let (_, bytes) = self.older.open(datagram, out)?;
        Ok(Outward { to: id, bytes })
    }

    fn is_alive(&self, clock: u64, id: SocketAddr) -> bool {
        self.users.is_alive(clock, id)
    }
}
