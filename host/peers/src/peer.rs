//! A program of the peer's, which runs until it is dropped.

use std::fs::{self, File};
use std::io;
use std::net::{SocketAddr, TcpStream};
use std::path::PathBuf;
use std::process::{Child, Command, Stdio};
use std::thread;
use std::time::{Duration, Instant};

use relay::sip004::Method;

use crate::{ports, Outcome, PATIENCE};

/// How long to wait before a peer is asked once more whether it listens.
const PAUSE: Duration = Duration::from_millis(5);

/// How often a peer is started that ends by itself: somebody else may have bound its port
/// in between.
const STARTS: usize = 3;

/// What each peer is told besides its own arguments: to relay UDP as well, and when to
/// give a connection up.
const COMMON: [&str; 3] = ["-u", "-t", "10"];

pub struct Peer {
    name: &'static str,
    method: Method,
    child: Child,
    log: PathBuf,
    /// Where it listens.
    pub address: SocketAddr,
}

impl Peer {
    /// Starts a program and connects to it once it listens. Its own arguments are those
    /// for the address that it is to bind.
    pub fn start(
        name: &'static str,
        method: Method,
        key: &str,
        arguments: impl Fn(SocketAddr) -> Vec<String>,
    ) -> Outcome<(Self, TcpStream)> {
        let mut starts = 0;
        loop {
            starts += 1;
            let address = ports::free()?;
            let mut peer = Self::spawn(name, method, key, &arguments(address), address)?;
            match peer.connect_once_it_listens() {
                Ok(socket) => return Ok((peer, socket)),
                Err(error) if starts == STARTS => return Err(peer.blamed(&error)),
                Err(_) => {}
            }
        }
    }

    fn spawn(
        name: &'static str,
        method: Method,
        key: &str,
        arguments: &[String],
        address: SocketAddr,
    ) -> Outcome<Self> {
        let log = std::env::temp_dir().join(format!("peers-{}-{name}.log", std::process::id()));
        let output = File::create(&log)?;
        let child = Command::new(name)
            .args(arguments)
            .args(["-m", method.name(), "--key", key])
            .args(COMMON)
            .stdin(Stdio::null())
            .stdout(output.try_clone()?)
            .stderr(output)
            .spawn()
            .map_err(|error| format!("{name} does not start: {error}"))?;
        Ok(Self {
            name,
            method,
            child,
            log,
            address,
        })
    }

    fn connect_once_it_listens(&mut self) -> Result<TcpStream, String> {
        let begun = Instant::now();
        while begun.elapsed() < PATIENCE {
            if let Ok(Some(status)) = self.child.try_wait() {
                return Err(format!("it ended by itself, {status}"));
            }
            if let Ok(socket) = self.connect() {
                return Ok(socket);
            }
            thread::sleep(PAUSE);
        }
        Err("it does not listen".to_string())
    }

    pub fn connect(&self) -> io::Result<TcpStream> {
        TcpStream::connect_timeout(&self.address, PATIENCE)
    }

    /// The error with all that is known of it: peer, method, and what the peer wrote.
    pub fn blamed(&self, error: &dyn std::fmt::Display) -> Box<dyn std::error::Error> {
        let (name, method) = (self.name, self.method);
        let log = fs::read_to_string(&self.log).unwrap_or_default();
        format!("{name} with {method}: {error}\n{}", log.trim_end()).into()
    }

    fn end(&mut self) -> io::Result<()> {
        self.child.kill()?;
        self.child.wait()?;
        fs::remove_file(&self.log)
    }
}

impl Drop for Peer {
    fn drop(&mut self) {
        if let Err(error) = self.end() {
            eprintln!("peers: {} is not ended: {error}", self.name);
        }
    }
}
