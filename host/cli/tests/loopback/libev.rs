//! shadowsocks-libev, which was written elsewhere, at one of both ends, in the 2017 edition.

use std::net::SocketAddr;

use relay::sip004::Method;

use crate::peer::Peer;
use crate::place::Place;
use crate::plain::{self, User};
use crate::target::Echo;
use crate::Outcome;

/// Payloads of datagrams: the peer has room for less than two frames.
const LENGTHS: [usize; 6] = [1, 16, 255, 1_024, 1_400, 2_700];

/// Bytes of a stream: many chunks.
const LONG: usize = 300_000;

/// The peer takes its key in the alphabet for URLs.
fn url_safe(place: &Place) -> String {
    place.key_text().replace('+', "-").replace('/', "_")
}

fn exchange(branch: SocketAddr) {
    // Streams first: the peer listens for them, which is waited for, before it binds its socket for datagrams. It closes both
    // directions when one of them ends.
    plain::exchange_open_stream(branch, b"short");
    plain::exchange_open_stream(branch, &plain::bytes(2, LONG));
    let user = User::new(branch);
    for length in LENGTHS {
        user.exchange(&plain::bytes(1, length));
    }
}

#[test]
#[ignore = "needs shadowsocks-libev; tests/peers/run brings it"]
fn the_branch_sends_to_its_server() -> Outcome<()> {
    let target = Echo::new();
    for method in Method::ALL {
        let place = Place::new(&format!("server-{method}"), method.name());
        let (peer, _) = Peer::start("ss-server", method, &url_safe(&place), |own| {
            let (host, port) = (own.ip().to_string(), own.port().to_string());
            ["-s", &host, "-p", &port].map(String::from).to_vec()
        })?;
        let connect = place.connect(peer.address, target.address, &[]);
        exchange(connect.address());
    }
    Ok(())
}

#[test]
#[ignore = "needs shadowsocks-libev; tests/peers/run brings it"]
fn its_tunnel_sends_to_the_box() -> Outcome<()> {
    let target = Echo::new();
    for method in Method::ALL {
        let place = Place::new(&format!("tunnel-{method}"), method.name());
        let serve = place.serve(&[]);
        let (server, target) = (serve.address(), target.address.to_string());
        let (tunnel, _) = Peer::start("ss-tunnel", method, &url_safe(&place), |own| {
            let [host, own_host] = [server, own].map(|address| address.ip().to_string());
            let [port, own_port] = [server, own].map(|address| address.port().to_string());
            let arguments = [
                "-s", &host, "-p", &port, "-b", &own_host, "-l", &own_port, "-L", &target,
            ];
            arguments.map(String::from).to_vec()
        })?;
        exchange(tunnel.address);
    }
    Ok(())
}
