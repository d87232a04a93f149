//! The peer as the server: the sealed end asks it for the plain end.

use std::net::{Ipv4Addr, TcpListener, TcpStream, UdpSocket};

use relay::sip004::Key;
use relay::Address;

use crate::datagrams::{self, Ends};
use crate::peer::Peer;
use crate::streams::{self, Sealed};
use crate::tally::Tally;
use crate::{random, Outcome};

const PROGRAM: &str = "ss-server";

/// So many bytes go with the address of the target, in its chunk.
const FIRST: usize = 100;

pub fn exchange(key: &Key, secret: &str, tally: &mut Tally) -> Outcome<()> {
    let (peer, socket) = Peer::start(PROGRAM, key.method(), secret, |address| {
        let (host, port) = (address.ip().to_string(), address.port().to_string());
        ["-s", &host, "-p", &port].map(String::from).to_vec()
    })?;
    over_tcp(socket, key, 0, tally)
        .and_then(|()| over_tcp(peer.connect()?, key, FIRST, tally))
        .and_then(|()| over_udp(&peer, key, tally))
        .map_err(|error| peer.blamed(&error))
}

fn over_tcp(socket: TcpStream, key: &Key, length: usize, tally: &mut Tally) -> Outcome<()> {
    let target = TcpListener::bind((Ipv4Addr::LOCALHOST, 0))?;
    let address = Address::from(target.local_addr()?);
    let first = random::bytes(length)?;
    let (socket, mut buffers) = (streams::with_timeouts(socket)?, Default::default());
    let mut sealed = Sealed::new(&socket, key, &mut buffers)?;
    sealed.send(&[address.as_bytes(), &first].concat())?;
    let mut plain = streams::accept(&target)?;
    streams::same(&first, &streams::receive(&mut plain, length)?)?;
    tally.bytes += length;
    streams::exchange(&mut sealed, &mut plain, tally)
}

fn over_udp(peer: &Peer, key: &Key, tally: &mut Tally) -> Outcome<()> {
    let socket = UdpSocket::bind((Ipv4Addr::LOCALHOST, 0))?;
    let target = datagrams::with_timeouts(UdpSocket::bind((Ipv4Addr::LOCALHOST, 0))?)?;
    let ends = Ends {
        sealed: &datagrams::Sealed::new(socket, key)?,
        plain: &target,
        address: Address::from(target.local_addr()?),
    };
    ends.exchange_as_client(peer.address, tally)
}
