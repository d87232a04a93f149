//! `connect`: the branch box.

mod older_users;
mod streams;
mod users;

use std::ffi::OsString;
use std::io;
use std::net::SocketAddr;
use std::sync::{Arc, Mutex};
use std::thread;

use relay::{sip004, Address, Key, Table};

use crate::arguments::{Arguments, Syntax};
use crate::failure::{misuse, tell, About, Outcome};
use crate::material::{Material, Secret};
use crate::random::Random;
use crate::relaying::older::Older;
use crate::relaying::senders::Senders;
use crate::relaying::service::{Limits, Port};
use crate::Verdict;
use older_users::OlderUsers;
use streams::{OlderStreams, Streams, UserStreams};
use users::Users;

const SYNTAX: Syntax = Syntax {
    values: &[
        "--listen",
        "--server",
        "--settings",
        "--method",
        "--key-file",
        "--retention",
        "--limit",
        "--target",
        "--streams",
        "--idle",
        "--clock-offset",
    ],
    flags: &[],
    operands: &[],
};

pub fn run(arguments: Vec<OsString>) -> Outcome<Verdict> {
    let arguments = Arguments::parse(&SYNTAX, arguments)?;
    let address: SocketAddr = arguments.wanted("--listen")?;
    let server = arguments.wanted("--server")?;
    let material = Material::read(&arguments)?;
    let target = material
        .target
        .ok_or_else(|| misuse("--target is missing"))?;
    let retention = Table::new(material.retention)
        .about("--retention")?
        .retention();
    let limits = Limits::read(&arguments)?;
    let port = Port::bind(address).about(address)?;
    let (address, method) = (port.address, material.secret.method());
    let branch = Branch {
        port,
        limits,
        server,
        target,
        limit: material.limit,
    };
    let started = match material.secret {
        Secret::Sip022(key) => branch.sip022(key, retention),
        Secret::Sip004(key) => branch.sip004(key, retention),
    };
    started.about(address)?;
    tell(format_args!("listening on {address}, {method}"));
    // The threads run until the program is killed.
    loop {
        thread::park();
    }
}

/// What a branch is started with.
struct Branch {
    port: Port,
    limits: Limits,
    server: Address,
    target: Address,
    limit: usize,
}

impl Branch {
    fn sip022(self, key: Key, retention: u64) -> io::Result<()> {
        let streams = UserStreams {
            streams: self.streams(),
            key: key.clone(),
            clock: Arc::clone(&self.limits.clock),
        };
        let users = Users {
            key,
            users: Senders::new(retention),
            random: Random::open()?,
            server: self.server,
            target: self.target,
            limit: self.limit,
        };
        let users = Arc::new(Mutex::new(users));
        self.port.relay(&self.limits, users, streams, None)
    }

    fn sip004(self, key: sip004::Key, retention: u64) -> io::Result<()> {
        let streams = OlderStreams {
            streams: self.streams(),
            key: key.clone(),
        };
        let users = OlderUsers {
            older: Older::new(key, Random::open()?, self.limit),
            users: Senders::new(retention),
            server: self.server,
            target: self.target,
        };
        let users = Arc::new(Mutex::new(users));
        self.port.relay(&self.limits, users, streams, None)
    }

    fn streams(&self) -> Streams {
        Streams {
            server: self.server.clone(),
            target: self.target.clone(),
            idle: self.limits.idle,
        }
    }
}
