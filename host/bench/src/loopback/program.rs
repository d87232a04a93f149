//! A relay's program, which runs until it is dropped.

use std::env;
use std::fs::{self, DirEntry};
use std::io::{self, Read};
use std::net::{Ipv4Addr, SocketAddr, TcpListener, UdpSocket};
use std::path::PathBuf;
use std::process::{Child, Command, Stdio};

use relay::base64;
use relay::settings::Method;

use super::cores::Cores;
use super::Outcome;

/// Ours, which stands beside this program, and what a user would take instead.
const OURS: &str = "bhajnolith";
pub const THEIRS: &str = "ss-server";

/// The variable in which ours takes its key.
const KEY_VARIABLE: &str = "BHAJNOLITH_KEY";

/// How long theirs remembers a client, in seconds.
const THEIR_TIMEOUT: &str = "60";

/// The path that theirs is told of, in bytes: it would cut off datagrams of 9,000.
const THEIR_MTU: &str = "9500";

/// How often a port is looked for that is free for both protocols.
const TRIES: usize = 20;

/// Whose relay.
#[derive(Clone, Copy, Debug, PartialEq, Eq)]
pub enum Whose {
    Ours,
    Theirs,
}

impl Whose {
    /// As the table names it.
    pub fn name(self) -> &'static str {
        match self {
            Self::Ours => "serve",
            Self::Theirs => THEIRS,
        }
    }

    /// The command that relays on an address.
    fn command(
        self,
        cores: Cores,
        at: SocketAddr,
        method: Method,
        secret: &[u8],
    ) -> Outcome<Command> {
        Ok(match self {
            Self::Ours => {
                let mut command = cores.command(our_path()?);
                command
                    .args(["serve", "--listen", &at.to_string()])
                    .args(["--method", method.name()])
                    .env(KEY_VARIABLE, base64::encode(secret));
                command
            }
            Self::Theirs => {
                let mut command = cores.command(THEIRS);
                command
                    .args(["-s", &at.ip().to_string(), "-p", &at.port().to_string()])
                    .args(["-m", method.name(), "--key", &base64::encode_url(secret)])
                    .args(["-U", "-t", THEIR_TIMEOUT, "--mtu", THEIR_MTU]);
                command
            }
        })
    }
}

/// Where ours is, which was built together with this program.
pub fn our_path() -> Outcome<PathBuf> {
    let path = env::current_exe()?.with_file_name(OURS);
    if path.is_file() {
        Ok(path)
    } else {
        Err(format!("{} is missing: `make bench` builds it", path.display()).into())
    }
}

pub struct Program {
    child: Child,
    pub address: SocketAddr,
}

impl Program {
    pub fn start(whose: Whose, cores: Cores, method: Method, secret: &[u8]) -> Outcome<Self> {
        let address = free_address()?;
        let child = whose
            .command(cores, address, method, secret)?
            .stdin(Stdio::null())
            .stdout(Stdio::null())
            .stderr(Stdio::piped())
            .spawn()?;
        Ok(Self { child, address })
    }

    pub fn has_ended(&mut self) -> bool {
        !matches!(self.child.try_wait(), Ok(None))
    }

    /// Ends it, for what it said.
    pub fn last_words(&mut self) -> String {
        self.end();
        let mut words = String::new();
        if let Some(mut said) = self.child.stderr.take() {
            // What cannot be read is not told.
            let _ = said.read_to_string(&mut words);
        }
        words.trim_end().to_string()
    }

    /// The processor's time that its threads have taken, in seconds, if the system tells it. The
    /// one of the process is told in hundredths, which are too coarse.
    pub fn cpu(&self) -> Option<f64> {
        let threads = fs::read_dir(format!("/proc/{}/task", self.child.id())).ok()?;
        let of = |thread: io::Result<DirEntry>| {
            let stat = fs::read_to_string(thread.ok()?.path().join("schedstat")).ok()?;
            let nanoseconds: f64 = stat.split_whitespace().next()?.parse().ok()?;
            Some(nanoseconds / 1e9)
        };
        threads.map(of).sum()
    }

    fn end(&mut self) {
        // An error says that it has ended.
        let _ = self.child.kill();
        let _ = self.child.wait();
    }
}

impl Drop for Program {
    fn drop(&mut self) {
        self.end();
    }
}

/// An address that was free just now, for both protocols.
fn free_address() -> io::Result<SocketAddr> {
    let mut tries = 0;
    loop {
        let listener = TcpListener::bind((Ipv4Addr::LOCALHOST, 0))?;
        let address = listener.local_addr()?;
        tries += 1;
        match UdpSocket::bind(address) {
            Ok(_) => return Ok(address),
            Err(error) if tries == TRIES => return Err(error),
            Err(_) => {}
        }
    }
}
