//! One service of a box: a method and key on a port of both protocols.

use std::io;
use std::net::SocketAddr;
use std::sync::{Arc, Mutex};

use relay::settings::Method;
use relay::{sip004, Key, Replies, Table};

use super::clients::Clients;
use super::older_clients::OlderClients;
use super::recorder::Recorder;
use super::state::Start;
use super::streams::{ClientStreams, OlderStreams, Streams};
use crate::arguments::Arguments;
use crate::failure::{misuse, tell, About, Outcome};
use crate::material::{Material, Secret};
use crate::random::Random;
use crate::relaying::lock;
use crate::relaying::older::Older;
use crate::relaying::senders::Senders;
use crate::relaying::service::{Limits, Port};
use crate::status::{Counters, Service};

/// A service that runs.
pub struct Running {
    listening: SocketAddr,
    method: Method,
    counters: Arc<Mutex<Counters>>,
    /// The 2017 edition has no sessions to show.
    clients: Option<Arc<Mutex<Clients>>>,
}

impl Running {
    /// Starts the service that the arguments from one `--listen` on tell of.
    pub fn start(
        arguments: &Arguments,
        limits: &Limits,
        recorder: Option<&Arc<Recorder>>,
    ) -> Outcome<Self> {
        let address: SocketAddr = arguments.wanted("--listen")?;
        let material = Material::read(arguments)?;
        let table = Table::new(material.retention).about("--retention")?;
        let state = arguments.path("--state")?;
        let port = Port::bind(address).about(address)?;
        let (listening, method) = (port.address, material.secret.method());
        let (counters, secret) = (Arc::clone(&port.counters), material.secret.clone());
        let starting = Starting {
            port,
            limits,
            material,
            recorder: recorder.cloned(),
        };
        let clients = match (secret, state) {
            (Secret::Sip022(key), state) => {
                let start = Start::new(state.as_deref(), key.method(), table, &limits.clock)?;
                Some(starting.sip022(key, start).about(listening)?)
            }
            (Secret::Sip004(key), None) => {
                let started = starting.sip004(key, table.retention());
                started.map(|()| None).about(listening)?
            }
            (Secret::Sip004(_), Some(_)) => {
                return Err(misuse("--state: the 2017 edition remembers nothing"));
            }
        };
        Ok(Self {
            listening,
            method,
            counters,
            clients,
        })
    }

    /// Says that it runs.
    pub fn announce(&self) {
        let Self {
            listening, method, ..
        } = self;
        tell(format_args!("listening on {listening}, {method}"));
    }

    pub fn snapshot(&self) -> Service {
        let table = |clients: &Arc<Mutex<Clients>>| Table::from_words(lock(clients).table.words());
        Service {
            listening: self.listening.to_string(),
            method: self.method,
            counters: lock(&self.counters).clone(),
            table: self.clients.as_ref().map(table),
        }
    }
}

/// What a service is started with.
struct Starting<'a> {
    port: Port,
    limits: &'a Limits,
    material: Material,
    recorder: Option<Arc<Recorder>>,
}

impl Starting<'_> {
    fn sip022(self, key: Key, start: Start) -> io::Result<Arc<Mutex<Clients>>> {
        let streams = ClientStreams {
            streams: self.streams(),
            key: key.clone(),
            pool: Mutex::new(start.pool),
            keeper: start.pool_keeper.map(Mutex::new),
            from: start.from,
        };
        let clients = Arc::new(Mutex::new(Clients {
            key,
            table: start.table,
            replies: Replies::new(),
            keeper: start.table_keeper,
            random: Random::open()?,
            target: self.material.target,
            limit: self.material.limit,
            from: start.from,
        }));
        let (limits, recorder) = (self.limits, self.recorder);
        self.port
            .relay(limits, Arc::clone(&clients), streams, recorder)?;
        Ok(clients)
    }

    fn sip004(self, key: sip004::Key, retention: u64) -> io::Result<()> {
        let streams = OlderStreams {
            streams: self.streams(),
            key: key.clone(),
        };
        let clients = Arc::new(Mutex::new(OlderClients {
            older: Older::new(key, Random::open()?, self.material.limit),
            clients: Senders::new(retention),
            target: self.material.target,
        }));
        self.port
            .relay(self.limits, clients, streams, self.recorder)
    }

    fn streams(&self) -> Streams {
        Streams {
            clock: Arc::clone(&self.limits.clock),
            target: self.material.target.clone(),
            idle: self.limits.idle,
        }
    }
}
