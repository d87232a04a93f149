//! The peer as the tunnel: the plain end is its user, the sealed end the server that it
//! sends to.

use std::net::{Ipv4Addr, SocketAddr, TcpListener, TcpStream, UdpSocket};

use relay::sip004::{Key, Method};
use relay::Address;

use crate::datagrams::{self, Ends};
use crate::peer::Peer;
use crate::streams::{self, Sealed};
use crate::tally::Tally;
use crate::{ports, random, Outcome};

const PROGRAM: &str = "ss-tunnel";

/// What a user sends before the server has accepted.
const FIRST: usize = 100;

/// Where the tunnel is to lead: an address of each kind. Nobody connects to it, as the
/// server is played here.
fn target(method: Method) -> Outcome<(&'static str, Address)> {
    let socket_address = |text: &str| text.parse::<SocketAddr>().map(Address::from);
    Ok(match method {
        Method::Aes128Gcm => ("192.0.2.7:4000", socket_address("192.0.2.7:4000")?),
        Method::Aes192Gcm => ("www.example:4000", Address::name(b"www.example", 4_000)?),
        Method::Aes256Gcm => ("[2001:db8::7]:4000", socket_address("[2001:db8::7]:4000")?),
    })
}

pub fn exchange(key: &Key, secret: &str, tally: &mut Tally) -> Outcome<()> {
    let (listener, socket) = ports::bind()?;
    let server = listener.local_addr()?;
    let (text, address) = target(key.method())?;
    let (peer, user) = Peer::start(PROGRAM, key.method(), secret, |own| {
        let [host, own_host] = [server, own].map(|address| address.ip().to_string());
        let [port, own_port] = [server, own].map(|address| address.port().to_string());
        let arguments = [
            "-s", &host, "-p", &port, "-b", &own_host, "-l", &own_port, "-L", text,
        ];
        arguments.map(String::from).to_vec()
    })?;
    over_tcp(user, key, &listener, &address, tally)
        .and_then(|()| over_udp(&peer, key, socket, address, tally))
        .map_err(|error| peer.blamed(&error))
}

fn over_tcp(
    user: TcpStream,
    key: &Key,
    listener: &TcpListener,
    address: &Address,
    tally: &mut Tally,
) -> Outcome<()> {
    let first = random::bytes(FIRST)?;
    let mut plain = streams::with_timeouts(user)?;
    streams::send(&mut plain, &first)?;
    let (socket, mut buffers) = (streams::accept(listener)?, Default::default());
    let mut sealed = Sealed::new(&socket, key, &mut buffers)?;
    let asked = sealed.receive_address()?;
    if asked != *address {
        return Err(format!("the tunnel asks for {asked}, not {address}").into());
    }
    streams::same(&first, &sealed.receive(FIRST)?)?;
    tally.bytes += FIRST;
    streams::exchange(&mut sealed, &mut plain, tally)
}

fn over_udp(
    peer: &Peer,
    key: &Key,
    socket: UdpSocket,
    address: Address,
    tally: &mut Tally,
) -> Outcome<()> {
    let user = datagrams::with_timeouts(UdpSocket::bind((Ipv4Addr::LOCALHOST, 0))?)?;
    let ends = Ends {
        sealed: &datagrams::Sealed::new(socket, key)?,
        plain: &user,
        address,
    };
    ends.exchange_as_server(peer.address, tally)
}
