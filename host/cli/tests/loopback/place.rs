//! A place to run boxes in: a folder with a key.

use std::fmt::Display;
use std::fs;
use std::net::SocketAddr;
use std::os::unix::net::UnixStream;
use std::path::PathBuf;
use std::process;

use relay::{Key, Session};

use crate::program::{self, Program};
use crate::status::{Counters, Service, Snapshot};
use crate::{wait, PATIENCE};

/// The method where any will do.
pub const METHOD: &str = "2022-blake3-aes-128-gcm";

/// A free port of the loopback interface.
pub const ANY: &str = "127.0.0.1:0";

pub struct Place {
    pub method: &'static str,
    folder: PathBuf,
}

impl Place {
    /// Makes the folder, which is named after a test, and a key in it.
    pub fn new(name: &str, method: &'static str) -> Self {
        // Short, as the path of a local socket has 107 bytes at most.
        let folder = std::env::temp_dir().join(format!("bhajnolith-{}-{name}", process::id()));
        fs::create_dir(&folder).expect("the folder is made");
        let place = Self { method, folder };
        program::answer(&["keygen", "--method", method, "--out", &place.file("key")]);
        place
    }

    /// A file of the folder.
    pub fn file(&self, name: &str) -> String {
        let path = self.folder.join(name);
        path.to_str()
            .expect("the folder's name is text")
            .to_string()
    }

    /// The key in base64.
    pub fn key_text(&self) -> String {
        let text = fs::read_to_string(self.file("key")).expect("the key is read");
        text.trim_end().to_string()
    }

    /// The key of a method of the 2022 edition.
    pub fn key(&self) -> Key {
        let method = self.method.parse().expect("a method of the 2022 edition");
        Key::from_base64(method, &self.key_text()).expect("a key of the method")
    }

    /// Starts a relay box at an address.
    pub fn serve_at(&self, address: impl Display, options: &[&str]) -> Program {
        let (address, status) = (address.to_string(), self.file("status"));
        let own = ["serve", "--listen", &address, "--status", &status];
        self.start(&own, options)
    }

    pub fn serve(&self, options: &[&str]) -> Program {
        self.serve_at(ANY, options)
    }

    /// Starts a branch box at an address.
    pub fn connect_at(
        &self,
        address: impl Display,
        server: SocketAddr,
        target: impl Display,
        options: &[&str],
    ) -> Program {
        let [address, server] = [address.to_string(), server.to_string()];
        let target = target.to_string();
        let own = [
            "connect", "--listen", &address, "--server", &server, "--target", &target,
        ];
        self.start(&own, options)
    }

    pub fn connect(&self, server: SocketAddr, target: impl Display, options: &[&str]) -> Program {
        self.connect_at(ANY, server, target, options)
    }

    fn start(&self, own: &[&str], options: &[&str]) -> Program {
        let key_file = self.file("key");
        let key = ["--method", self.method, "--key-file", &key_file];
        let arguments = [own, &key, options].concat();
        Program::start(&arguments.into_iter().map(String::from).collect::<Vec<_>>())
    }

    /// What the box tells of itself.
    pub fn snapshot(&self) -> Snapshot {
        let socket = UnixStream::connect(self.file("status")).expect("the box gives its status");
        socket
            .set_read_timeout(Some(PATIENCE))
            .expect("a timeout is set");
        Snapshot::read(&mut &socket).expect("the status is a snapshot")
    }

    /// What the box tells of its only service.
    pub fn service(&self) -> Service {
        self.snapshot().services.remove(0)
    }

    /// Waits until the counters of the only service say so: the box counts what it has done.
    pub fn await_counters(&self, what: &str, look: impl Fn(&Counters) -> bool) {
        let mut last = Counters::default();
        let is_so = wait::holds(|| {
            last = self.service().counters;
            look(&last)
        });
        assert!(is_so, "not within {PATIENCE:?}: {what}: {last:?}");
    }

    /// What `sessions` tells a script of the box.
    pub fn sessions_json(&self, options: &[&str]) -> String {
        let status = self.file("status");
        program::answer(&[&["sessions", &status, "--json"], options].concat())
    }

    /// The sessions that are alive at the box.
    pub fn sessions(&self) -> Vec<Session> {
        let mut snapshot = self.snapshot();
        let table = snapshot
            .services
            .remove(0)
            .table
            .expect("the box has a table");
        table.sessions(snapshot.clock).collect()
    }
}

impl Drop for Place {
    fn drop(&mut self) {
        if let Err(error) = fs::remove_dir_all(&self.folder) {
            eprintln!("{}: {error}", self.folder.display());
        }
    }
}
