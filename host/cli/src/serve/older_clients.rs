//! Clients of the box that send datagrams of the 2017 edition, which has no sessions: a client
//! is where it sends from.

use std::net::SocketAddr;

use relay::Address;

use super::clients::allowed;
use crate::relaying::datagrams::{Dropped, Ends, Inward, Outward};
use crate::relaying::older::Older;
use crate::relaying::senders::Senders;

pub struct OlderClients {
    pub older: Older,
    pub clients: Senders<()>,
    /// The only target that may be asked for.
    pub target: Option<Address>,
}

impl Ends for OlderClients {
    /// Where the client sends from.
    type Id = SocketAddr;

    fn inward(
        &mut self,
        clock: u64,
        from: SocketAddr,
        datagram: &[u8],
        out: &mut [u8],
    ) -> Result<Inward<SocketAddr>, Dropped> {
        let (asked, bytes) = self.older.open(datagram, out)?;
        let is_new = self.clients.hear(clock, from, || Ok(()))?;
        Ok(Inward {
            id: from,
            is_new,
            to: allowed(self.target.as_ref(), asked),
            bytes,
        })
    }

    fn outward(
        &mut self,
        clock: u64,
        id: SocketAddr,
        from: SocketAddr,
        datagram: &[u8],
        out: &mut [u8],
    ) -> Result<Outward, Dropped> {
        self.clients.find(clock, id).ok_or(Dropped::Forgotten)?;
        let length = self.older.seal(&Address::from(from), datagram, out)?;
        Ok(Outward {
            to: id,
            bytes: 0..length,
        })
    }

    fn is_alive(&self, clock: u64, id: SocketAddr) -> bool {
        self.clients.is_alive(clock, id)
    }
}
