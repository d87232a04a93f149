//! Datagrams over UDP.

use std::net::{SocketAddr, UdpSocket};

use relay::sip004::{self, Key};
use relay::{Address, MAX_DATAGRAM};

use crate::streams::{same, told};
use crate::tally::Tally;
use crate::{random, Outcome, PATIENCE};

/// Payloads up to one that fits an Ethernet frame, and one that does not: the peer has
/// room for less than two frames.
const LENGTHS: [usize; 9] = [1, 2, 15, 16, 17, 255, 1_024, 1_400, 2_700];

/// A socket whose datagrams the library seals and opens.
pub struct Sealed {
    pub socket: UdpSocket,
    key: Key,
}

impl Sealed {
    pub fn new(socket: UdpSocket, key: &Key) -> Outcome<Self> {
        let (socket, key) = (with_timeouts(socket)?, key.clone());
        Ok(Self { socket, key })
    }

    /// Sends an address with a payload behind it.
    pub fn send(&self, to: SocketAddr, address: &Address, payload: &[u8]) -> Outcome<()> {
        let salt = random::bytes(self.key.method().salt_len())?;
        let text = [address.as_bytes(), payload].concat();
        let mut datagram = vec![0; sip004::sealed_datagram_len(self.key.method(), text.len())?];
        sip004::seal_datagram(&self.key, &salt, &text, &mut datagram)?;
        send(&self.socket, to, &datagram)
    }

    /// The address and the payload of the next datagram, and who sent it.
    pub fn receive(&self) -> Outcome<(SocketAddr, Address, Vec<u8>)> {
        let (from, datagram) = receive(&self.socket)?;
        let mut text = vec![0; datagram.len()];
        let length = sip004::open_datagram(&self.key, &datagram, &mut text)
            .map_err(|refusal| format!("the library refuses a datagram: {refusal}"))?;
        let (address, payload) = Address::split(&text[..length])?.ok_or("no whole address")?;
        Ok((from, address, payload.to_vec()))
    }
}

/// Both ends of datagrams that the peer relays.
pub struct Ends<'a> {
    pub sealed: &'a Sealed,
    pub plain: &'a UdpSocket,
    /// What the sealed end's datagrams name, in both directions.
    pub address: Address,
}

impl Ends<'_> {
    /// The sealed end is the peer's client: it sends first, and the plain end answers.
    pub fn exchange_as_client(&self, peer: SocketAddr, tally: &mut Tally) -> Outcome<()> {
        for length in LENGTHS {
            let payload = random::bytes(length)?;
            self.sealed.send(peer, &self.address, &payload)?;
            let (from, received) = receive(self.plain)?;
            same(&payload, &received)?;
            let answer = random::bytes(length)?;
            send(self.plain, from, &answer)?;
            self.receive_sealed(&answer)?;
            tally.datagrams += 2;
            tally.bytes += 2 * length;
        }
        Ok(())
    }

    /// The sealed end is the peer's server: it answers to what the plain end sends first.
    pub fn exchange_as_server(&self, peer: SocketAddr, tally: &mut Tally) -> Outcome<()> {
        for length in LENGTHS {
            let payload = random::bytes(length)?;
            send(self.plain, peer, &payload)?;
            let from = self.receive_sealed(&payload)?;
            let answer = random::bytes(length)?;
            self.sealed.send(from, &self.address, &answer)?;
            same(&answer, &receive(self.plain)?.1)?;
            tally.datagrams += 2;
            tally.bytes += 2 * length;
        }
        Ok(())
    }

    /// A datagram with this payload and the ends' address has to arrive sealed.
    fn receive_sealed(&self, payload: &[u8]) -> Outcome<SocketAddr> {
        let (from, address, received) = self.sealed.receive()?;
        same(payload, &received)?;
        if address != self.address {
            return Err(format!("a datagram names {address}, not {}", self.address).into());
        }
        Ok(from)
    }
}

pub fn with_timeouts(socket: UdpSocket) -> Outcome<UdpSocket> {
    socket.set_read_timeout(Some(PATIENCE))?;
    socket.set_write_timeout(Some(PATIENCE))?;
    Ok(socket)
}

fn send(socket: &UdpSocket, to: SocketAddr, bytes: &[u8]) -> Outcome<()> {
    let sent = socket.send_to(bytes, to);
    sent.map_err(|error| told("a datagram's way", &error))?;
    Ok(())
}

fn receive(socket: &UdpSocket) -> Outcome<(SocketAddr, Vec<u8>)> {
    let mut bytes = vec![0; MAX_DATAGRAM];
    let received = socket.recv_from(&mut bytes);
    let (length, from) = received.map_err(|error| told("a datagram's way", &error))?;
    bytes.truncate(length);
    Ok((from, bytes))
}
