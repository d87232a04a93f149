//! A client and a server exchange a question and an answer over UDP on this machine.
//!
//!     cargo run --example datagram [METHOD]

use std::env;
use std::error::Error;
use std::fs::File;
use std::io::{self, Read};
use std::net::{SocketAddr, UdpSocket};

use relay::{Address, Clock, Key, Method, Nonce, Peer, Replies, SealSession, Table, MAX_DATAGRAM};

fn main() -> Result<(), Box<dyn Error>> {
    let method = match env::args().nth(1) {
        Some(name) => name.parse()?,
        None => Method::ChaCha20Poly1305,
    };
    let key = Key::new(method, &random::<32>()?[..method.key_len()])?;
    let clock = Clock::new();
    let client = UdpSocket::bind("127.0.0.1:0")?;
    let server = UdpSocket::bind("127.0.0.1:0")?;

    // The client seals a question for a target behind the server.
    let mut session = SealSession::client(u64::from_be_bytes(random()?));
    let target: Address = "time.example:37".parse()?;
    let mut wire = vec![0; MAX_DATAGRAM];
    let (nonce, question) = (nonce(method)?, b"What time is it?");
    let length = session.seal(&key, nonce, clock.now(), &target, 0, question, &mut wire)?;
    client.send_to(&wire[..length], server.local_addr()?)?;
    println!("client   sends {length} bytes with {method}");

    serve(&server, &key, &clock)?;

    // The client has a table for the server's sessions.
    let mut servers = Table::new(60)?;
    let mut plaintext = vec![0; MAX_DATAGRAM];
    let (length, caller) = client.recv_from(&mut wire)?;
    let (own, peer) = (session.id(), Peer::from(caller));
    let header = servers.open_client(
        &key,
        clock.now(),
        own,
        peer,
        &wire[..length],
        &mut plaintext,
    )?;
    let answer = String::from_utf8_lossy(header.payload(&plaintext));
    let told_by = header.address(&plaintext);
    println!("client   is told {answer:?} by {told_by}");
    Ok(())
}

/// Opens one question, refuses a copy of it, and answers.
fn serve(server: &UdpSocket, key: &Key, clock: &Clock) -> Result<(), Box<dyn Error>> {
    let mut wire = vec![0; MAX_DATAGRAM];
    let mut plaintext = vec![0; MAX_DATAGRAM];

    // The table remembers where a session came from.
    let mut clients = Table::new(60)?;
    let (length, caller) = server.recv_from(&mut wire)?;
    let peer = Peer::from(caller);
    let header = clients.open_server(key, clock.now(), peer, &wire[..length], &mut plaintext)?;
    let question = String::from_utf8_lossy(header.payload(&plaintext));
    let asked_for = header.address(&plaintext);
    println!("server   is asked {question:?} for {asked_for}");

    let copy = clients.open_server(key, clock.now(), peer, &wire[..length], &mut plaintext);
    println!("server   refuses a copy: {}", copy.unwrap_err());
    println!("server   has {}", clients.display(clock.now()));

    // The answer goes to where the session was last heard.
    let (mut replies, mut random) = (Replies::new(), File::open("/dev/urandom")?);
    let source = Address::from(SocketAddr::from(([192, 0, 2, 37], 37)));
    let (now, client, answer) = (clock.now(), header.session_id, b"Tea time.");
    let (length, peer) = replies
        .seal(
            key,
            &clients,
            now,
            client,
            &source,
            answer,
            &mut random,
            &mut wire,
        )?
        .ok_or("the client is forgotten")?;
    server.send_to(&wire[..length], SocketAddr::from(peer))?;
    Ok(())
}

/// Another one for each datagram, where the method takes one.
fn nonce(method: Method) -> io::Result<Option<Nonce>> {
    let random = method.takes_nonce().then(random).transpose()?;
    Ok(random.map(Nonce::new))
}

fn random<const N: usize>() -> io::Result<[u8; N]> {
    let mut bytes = [0; N];
    File::open("/dev/urandom")?.read_exact(&mut bytes)?;
    Ok(bytes)
}
