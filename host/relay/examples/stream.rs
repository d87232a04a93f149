//! A client and a server exchange a request and a response over a connection of the loopback
//! interface.
//!
//!     cargo run --example stream

use std::error::Error;
use std::fs::File;
use std::io::{self, BufRead, Read, Write};
use std::net::{Ipv4Addr, Shutdown, TcpListener, TcpStream};
use std::sync::Mutex;
use std::thread;

use relay::io::{Buffers, Incoming, Outgoing};
use relay::{Address, Clock, Key, Method, Pool};

fn main() -> Result<(), Box<dyn Error>> {
    let key = Key::new(Method::Aes256Gcm, &random::<32>()?)?;
    let clock = Clock::new();
    let listener = TcpListener::bind((Ipv4Addr::LOCALHOST, 0))?;
    let client = TcpStream::connect(listener.local_addr()?)?;
    let (server, _) = listener.accept()?;
    thread::scope(|scope| {
        let served = scope.spawn(|| serve(&server, &key, &clock));
        ask(&client, &key, &clock)?;
        served.join().map_err(|_| "the server panicked")??;
        Ok(())
    })
}

/// The client sends a head with its first payload and one more chunk, and reads what it is
/// told.
fn ask(socket: &TcpStream, key: &Key, clock: &Clock) -> Result<(), Box<dyn Error>> {
    let [mut up, mut down] = [Buffers::new(), Buffers::new()];
    let (salt, target) = (random::<32>()?, "www.example:80".parse::<Address>()?);
    let first = b"GET / HTTP/1.1\r\n";
    let mut request = Outgoing::request(socket, key, &salt, clock, &target, 64, first, &mut up)?;
    request.write_all(b"Host: www.example\r\n\r\n")?;
    // The end of the request: the server sees the end of what it reads.
    socket.shutdown(Shutdown::Write)?;
    let response = Incoming::response(socket, key, clock, &salt, &mut down);
    for line in response.lines() {
        println!("client   is told {}", line?);
    }
    Ok(())
}

/// The server reads the head, then the text, and responds. The response is bound to the
/// request by its salt.
fn serve(socket: &TcpStream, key: &Key, clock: &Clock) -> io::Result<()> {
    let [mut up, mut down] = [Buffers::new(), Buffers::new()];
    // One pool for all connections under the key.
    let pool = Mutex::new(Pool::new(key.method()));
    let (head, request) = Incoming::request(socket, key, clock, &pool, &mut up)?;
    println!("server   is asked for {}", head.address);
    for line in request.lines() {
        println!("server   reads {}", line?);
    }
    let salt = random::<32>()?;
    let mut response = Outgoing::response(socket, key, &salt, head.salt(), clock, &mut down);
    response.write_all(b"HTTP/1.1 204 No Content\r\n\r\n")?;
    socket.shutdown(Shutdown::Write)
}

fn random<const N: usize>() -> io::Result<[u8; N]> {
    let mut bytes = [0; N];
    File::open("/dev/urandom")?.read_exact(&mut bytes)?;
    Ok(bytes)
}
