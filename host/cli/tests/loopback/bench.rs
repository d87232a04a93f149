//! The bench: 64 senders at 400 datagrams a second through a bad network, for a minute.

use std::env;
use std::thread;
use std::time::{Duration, Instant};

use relay::Session;

use crate::place::{Place, METHOD};
use crate::program::{self, Memory, Program};
use crate::proxy::{Proxy, Traffic};
use crate::readings::Counting;
use crate::senders::Senders;
use crate::silent::Silent;
use crate::wait;
use crate::weather::{BAD, BAD_BACK};

/// The environment's variable for how long the bench runs, in seconds.
const SECONDS: &str = "BHAJNOLITH_BENCH_SECONDS";
const DEFAULT_SECONDS: u64 = 60;

const SENDERS: u16 = 64;
const RATE: u32 = 400;

/// The first senders are busy: their windows move past what the network holds back.
const BUSY: usize = 4;

/// How often senders look for answers: once in so many datagrams.
const LOOKS: u64 = 10;

/// After so many seconds the box has all the memory that it needs.
const WARM: u64 = 10;

/// A reading that fills the buffers of the threads that it comes to.
const LONG: usize = 60_000;

fn seconds() -> u64 {
    let given = env::var(SECONDS).ok();
    given.map_or(DEFAULT_SECONDS, |text| text.parse().expect(SECONDS))
}

/// Every sender sends long readings until one has come back: then all buffers were filled once,
/// and are resident.
fn fill_buffers(senders: &mut Senders) {
    let mut silent: Vec<usize> = (0..senders.len()).collect();
    wait::until("a long reading of every sender comes back", || {
        for &series in &silent {
            senders.send_long(series, LONG);
            thread::sleep(Duration::from_secs(1) / RATE);
        }
        senders.receive();
        let returned = &senders.returned.readings;
        let is_heard = |series| returned.iter().any(|r| usize::from(r.series) == series);
        silent.retain(|series| !is_heard(*series));
        silent.is_empty()
    });
}

/// Whose turn it is: of five datagrams busy senders send two, by turns.
fn turn(number: u64) -> usize {
    let (round, place) = ((number / 5) as usize, (number % 5) as usize);
    match place {
        0 | 1 => (2 * round + place) % BUSY,
        _ => BUSY + (3 * round + place - 2) % (usize::from(SENDERS) - BUSY),
    }
}

/// Sends readings for a number of seconds, at the rate.
fn send(senders: &mut Senders, from: u64, seconds: u64) -> u64 {
    let (begun, pace) = (Instant::now(), Duration::from_secs(1) / RATE);
    let count = seconds * u64::from(RATE);
    for number in 0..count {
        senders.send(turn(from + number));
        if number % LOOKS == 0 {
            senders.receive();
        }
        let due = begun + pace * number as u32;
        thread::sleep(due.saturating_duration_since(Instant::now()));
    }
    from + count
}

#[test]
fn every_reading_counts_once_and_in_its_own_series() {
    let silent = Silent::begin();
    let place = Place::new("bench", METHOD);
    let target = Counting::new();
    let serve = place.serve(&[]);
    let proxy = Proxy::start(place.key(), serve.address(), BAD, BAD_BACK);
    let connect = place.connect(proxy.address, target.address(), &[]);
    let mut senders = Senders::new(SENDERS, connect.address());
    let seconds = seconds();
    let warm = WARM.min(seconds / 2);
    fill_buffers(&mut senders);
    let sent = send(&mut senders, 0, warm);
    let memory = serve.memory();
    send(&mut senders, sent, seconds - warm);
    proxy.settle();
    let run = Run {
        place: &place,
        target: &target,
        proxy: &proxy,
        programs: [&serve, &connect],
    };
    run.check_there();
    run.check_back(&mut senders);
    run.check_sessions();
    run.check_shown();
    Memory::assert_not_grown(memory, serve.memory());
    // A shorter run leaves no time for these.
    if seconds >= DEFAULT_SECONDS {
        let left_behind = proxy.look(|traffic| traffic.book.left_behind);
        assert!(left_behind > 0, "nothing came too late for its window");
        silent.check();
    }
}

/// What there is to be checked behind it.
struct Run<'a> {
    place: &'a Place,
    target: &'a Counting,
    proxy: &'a Proxy,
    programs: [&'a Program; 2],
}

impl Run<'_> {
    /// How many datagrams the system dropped before anybody saw them: on a machine that is busy
    /// with other things so many may be missing.
    fn dropped(&self) -> u64 {
        let ids = self
            .programs
            .map(Program::id)
            .into_iter()
            .chain([std::process::id()]);
        ids.flat_map(program::datagram_sockets).sum()
    }

    /// The box gave the answers of the plain book, and the target has the book's readings.
    fn check_there(&self) {
        let expected = self.proxy.look(|traffic| {
            assert_eq!(traffic.faults, [""; 0]);
            traffic.book.answers
        });
        let total = |answers: [u64; 16]| answers.iter().sum::<u64>();
        wait::until("the box has answered to all", || {
            let answers = self.place.service().counters.answers;
            total(answers) + self.dropped() >= total(expected)
        });
        wait::until("the target has got all", || {
            let arrived = self
                .target
                .look("the target", |arrivals| arrivals.readings.len());
            arrived as u64 + self.dropped() >= expected[0]
        });
        if self.dropped() == 0 {
            assert_eq!(self.place.service().counters.answers, expected);
        }
        let missing = self.proxy.look(|traffic| {
            self.target.look("the target", |arrivals| {
                assert_eq!(arrivals.ports.len(), usize::from(SENDERS));
                traffic.book.readings.difference(&arrivals.readings).count() as u64
            })
        });
        assert!(
            missing <= self.dropped(),
            "{missing} readings are missing at the target"
        );
    }

    /// Every reading that was sent back, and that the network did not lose, came to its sender.
    fn check_back(&self, senders: &mut Senders) {
        let expected = self.proxy.look(|traffic| traffic.replies);
        wait::until("all that was sent back has come", || {
            senders.receive();
            senders.returned.readings.len() as u64 + self.dropped() >= expected
        });
        senders.returned.assert_sound("the senders");
        let returned = senders.returned.readings.len() as u64;
        assert!(returned <= expected, "{returned} came back of {expected}");
    }

    /// The table tells of each session what the plain book does.
    fn check_sessions(&self) {
        let sessions = self.place.sessions();
        self.proxy.look(|traffic| {
            assert_eq!(sessions.len(), traffic.book.pages.len());
            for session in &sessions {
                let page = traffic.book.pages.get(&session.id);
                let page = page.unwrap_or_else(|| panic!("nobody sent as {:016x}", session.id));
                let (accepted, repeats) = (page.accepted.len() as u64, page.repeats);
                let missing = accepted + repeats - session.accepted - session.repeats;
                assert!(
                    missing <= self.dropped(),
                    "{session}, not {accepted} and {repeats}"
                );
                if self.dropped() == 0 {
                    assert_eq!((session.accepted, session.repeats), (accepted, repeats));
                }
            }
        });
    }

    /// `sessions` shows what the table tells, and adds up idle and loaded movements.
    fn check_shown(&self) {
        let sessions = self.place.sessions();
        let is_loaded = |session: &&Session| {
            let series = |traffic: &Traffic| traffic.book.pages[&session.id].series;
            self.proxy.look(series) % 2 == 1
        };
        let (loaded, idle): (Vec<_>, Vec<_>) = sessions.iter().partition(is_loaded);
        let [idle_ids, loaded_ids] = [&idle, &loaded].map(|group| ids(group));
        let options = ["--idle", &idle_ids, "--loaded", &loaded_ids];
        let shown = self.place.sessions_json(&options);
        let sums = [("idle", idle), ("loaded", loaded)].map(|(name, group)| {
            let accepted: u64 = group.iter().map(|session| session.accepted).sum();
            let repeats: u64 = group.iter().map(|session| session.repeats).sum();
            format!(r#""name":"{name}","accepted":{accepted},"repeats":{repeats}"#)
        });
        for expected in sessions.iter().map(json).chain(sums) {
            assert!(shown.contains(&expected), "{expected} is not in {shown}");
        }
    }
}

fn ids(sessions: &[&Session]) -> String {
    let ids = sessions
        .iter()
        .map(|session| format!("{:016x}", session.id));
    ids.collect::<Vec<_>>().join(",")
}

fn json(session: &Session) -> String {
    let Session {
        id,
        peer,
        accepted,
        repeats,
        ..
    } = session;
    format!(r#""id":"{id:016x}","peer":"{peer}","accepted":{accepted},"repeats":{repeats}"#)
}
