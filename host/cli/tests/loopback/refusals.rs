//! What the box refuses: a 65th session, and clocks that are too far apart.

use crate::place::{Place, METHOD};
use crate::plain::{self, User};
use crate::program::Program;
use crate::senders::Senders;
use crate::target::Echo;

/// How many sessions a table holds.
const SESSIONS: u16 = 64;

/// Every sender sends a reading and gets it back.
fn exchange(senders: &mut Senders) {
    senders.exchange_rounds(1);
}

#[test]
fn a_full_table_refuses_the_next_session_alone() {
    let place = Place::new("full", METHOD);
    let target = Echo::new();
    let serve = place.serve(&[]);
    let connect = place.connect(serve.address(), target.address, &[]);
    let other = place.connect(serve.address(), target.address, &[]);
    let mut senders = Senders::new(SESSIONS, connect.address());
    exchange(&mut senders);
    let late = User::new(other.address());
    for refused in 1..=3 {
        late.send(b"one too many");
        place.await_counters("the 65th session is refused", |counters| {
            counters.answers[9] == refused
        });
        exchange(&mut senders);
    }
    late.assert_silent();
    let shown = place.sessions_json(&[]);
    assert!(
        shown.contains(r#""number":9,"name":"full","count":3"#),
        "{shown}"
    );
    let sessions = place.sessions();
    assert_eq!(sessions.len(), usize::from(SESSIONS));
    assert!(
        sessions.iter().all(|s| (s.accepted, s.repeats) == (4, 0)),
        "{sessions:?}"
    );
}

/// What a branch sends to the box is refused for this reason, datagrams and streams.
fn assert_refused(place: &Place, connect: &Program, number: usize) {
    let user = User::new(connect.address());
    user.send(b"to be refused");
    plain::assert_closed(&plain::stream(connect.address()));
    place.await_counters("both are refused", |counters| {
        counters.answers[number] == 1 && counters.streams_refused == 1
    });
    user.assert_silent();
    let counters = place.service().counters;
    assert_eq!((counters.answers[0], counters.forwarded), (0, 0));
    assert_eq!(place.sessions(), []);
}

#[test]
fn clocks_31_seconds_apart_are_refused() {
    // A second may pass between branch and box, which brings a branch that is ahead nearer.
    for (name, of_box, of_branch) in [("box-ahead", "31", "0"), ("branch-ahead", "0", "32")] {
        let place = Place::new(name, METHOD);
        let target = Echo::new();
        let serve = place.serve(&["--clock-offset", of_box]);
        let options = ["--clock-offset", of_branch];
        let connect = place.connect(serve.address(), target.address, &options);
        assert_refused(&place, &connect, 7);
    }
}

#[test]
fn another_key_is_refused() {
    let [place, other] = ["key", "other-key"].map(|name| Place::new(name, METHOD));
    let target = Echo::new();
    let serve = place.serve(&[]);
    let connect = other.connect(serve.address(), target.address, &[]);
    assert_refused(&place, &connect, 4);
}

#[test]
fn clocks_30_seconds_apart_are_taken() {
    for (name, offset) in [("ahead", "29"), ("behind", "-29")] {
        let place = Place::new(name, METHOD);
        let target = Echo::new();
        let serve = place.serve(&["--clock-offset", offset]);
        let connect = place.connect(serve.address(), target.address, &[]);
        User::new(connect.address()).exchange(b"from nearly another time");
        plain::exchange_stream(connect.address(), b"from nearly another time");
    }
}
