//! Sessions that say nothing while the bench runs, and are forgotten.

use std::thread;
use std::time::{Duration, Instant};

use crate::place::{Place, METHOD};
use crate::plain::User;
use crate::program::{self, Program};
use crate::senders::Senders;
use crate::target::Echo;
use crate::wait;

/// As many as a table holds.
const SENDERS: u16 = 64;

/// How long the box remembers them: as short as it may be.
const RETENTION: Duration = Duration::from_secs(60);

/// The branch remembers its senders for longer, and so keeps their sessions.
const LONGER: &str = "3600";

pub struct Silent {
    place: Place,
    target: Echo,
    serve: Program,
    _connect: Program,
    senders: Senders,
    since: Instant,
}

impl Silent {
    /// Every sender is heard once.
    pub fn begin() -> Self {
        let place = Place::new("silent", METHOD);
        let target = Echo::new();
        let serve = place.serve(&["--retention", &RETENTION.as_secs().to_string()]);
        let options = ["--retention", LONGER];
        let connect = place.connect(serve.address(), target.address, &options);
        let mut senders = Senders::new(SENDERS, connect.address());
        senders.exchange_rounds(1);
        assert_eq!(place.sessions().len(), usize::from(SENDERS));
        Self {
            place,
            target,
            serve,
            _connect: connect,
            senders,
            since: Instant::now(),
        }
    }

    /// The box has forgotten them, and has room for others and for those that begin again.
    pub fn check(mut self) {
        thread::sleep(RETENTION.saturating_sub(self.since.elapsed()));
        wait::until("all sessions are forgotten", || {
            self.place.sessions().is_empty()
        });
        wait::until("only the front socket is open", || {
            program::datagram_sockets(self.serve.id()).len() == 1
        });
        let other = self
            .place
            .connect(self.serve.address(), self.target.address, &[]);
        User::new(other.address()).exchange(b"there is room");
        let last = self.senders.len() - 1;
        let readings: Vec<_> = (0..last)
            .map(|series| self.senders.send_short(series))
            .collect();
        self.senders.await_return(&readings);
        self.senders.send_short(last);
        self.place
            .await_counters("the table is full again", |counters| {
                counters.answers[9] == 1
            });
    }
}
