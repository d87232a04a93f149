//! Either side is killed in the middle, and starts again.

use std::fs;
use std::io::Write;

use crate::garbage;
use crate::place::{Place, METHOD};
use crate::plain::{self, User};
use crate::program::{self, Program};
use crate::proxy::Proxy;
use crate::readings::Counting;
use crate::senders::Senders;
use crate::target::Echo;
use crate::wait;
use crate::weather::FINE;

/// Readings that each sender sends between two events.
const READINGS: usize = 5;

/// Repeats what the branch sent, until the box has answered to all that the system did not drop.
fn repeat(place: &Place, proxy: &Proxy, serve: &Program) {
    let answered = || {
        let answers: u64 = place.service().counters.answers.iter().sum();
        answers + program::datagram_sockets(serve.id()).iter().sum::<u64>()
    };
    let before = answered();
    let repeated = proxy.repeat_all();
    wait::until("the box answers to every copy", || {
        answered() >= before + repeated
    });
}

/// Starts a box whose state file is there and old enough: an empty one of a minute ago.
fn serve_with_state(place: &Place) -> Program {
    let state = place.file("state");
    let options = ["--state", &state];
    place
        .serve(&[&options[..], &["--clock-offset", "-62"]].concat())
        .kill();
    place.serve(&options)
}

#[test]
fn a_box_that_restarts_counts_nothing_twice() {
    let place = Place::new("box", METHOD);
    let target = Counting::new();
    let serve = serve_with_state(&place);
    let address = serve.address();
    let proxy = Proxy::start(place.key(), address, FINE, FINE);
    let connect = place.connect(proxy.address, target.address(), &[]);
    let mut senders = Senders::new(64, connect.address());
    let before = senders.exchange_rounds(READINGS);
    // Some of these are lost.
    senders.send_rounds(READINGS);
    serve.kill();
    target.expect_another_box();
    let serve = place.serve_at(address, &["--state", &place.file("state")]);
    let after = senders.exchange_rounds(READINGS);
    repeat(&place, &proxy, &serve);
    let last = senders.exchange_rounds(READINGS);
    let arrived = target.look("the target", |arrivals| {
        assert!([before, after, last]
            .concat()
            .iter()
            .all(|r| arrivals.readings.contains(r)));
        arrivals.readings.len() as u64
    });
    let accepted: u64 = place
        .sessions()
        .iter()
        .map(|session| session.accepted)
        .sum();
    // One may have been on its way through the box when it ended.
    assert!(
        arrived <= accepted && accepted <= arrived + 1,
        "{arrived} of {accepted} arrived"
    );
}

#[test]
fn a_box_that_restarts_takes_no_head_twice() {
    let place = Place::new("heads", METHOD);
    let head = garbage::head(&place);
    let serve = serve_with_state(&place);
    let address = serve.address();
    let send = || {
        let mut stream = plain::stream(address);
        stream.write_all(&head).expect("the box listens");
        // The target is not there.
        plain::assert_closed(&stream);
    };
    send();
    place.await_counters("the head is taken", |counters| {
        (counters.streams, counters.streams_refused) == (1, 0)
    });
    serve.kill();
    let _serve = place.serve_at(address, &["--state", &place.file("state")]);
    send();
    place.await_counters("the head is refused", |counters| {
        (counters.streams, counters.streams_refused) == (1, 1)
    });
}

#[test]
fn a_branch_that_restarts_has_new_sessions() {
    let place = Place::new("branch", METHOD);
    let target = Counting::new();
    let serve = place.serve(&[]);
    let proxy = Proxy::start(place.key(), serve.address(), FINE, FINE);
    let connect = place.connect(proxy.address, target.address(), &[]);
    let address = connect.address();
    let mut senders = Senders::new(32, address);
    senders.exchange_rounds(READINGS);
    senders.send_rounds(READINGS);
    connect.kill();
    let _connect = place.connect_at(address, proxy.address, target.address(), &[]);
    senders.exchange_rounds(READINGS);
    repeat(&place, &proxy, &serve);
    target.look("the target", |arrivals| {
        assert_eq!(
            arrivals.ports.len(),
            64,
            "each session has a socket of its own"
        );
    });
    assert_eq!(place.sessions().len(), 64);
}

/// A branch whose user gets no answer, and a box that says why.
fn assert_quiet(place: &Place, connect: &Program) {
    let before = place.service().counters.too_early;
    let user = User::new(connect.address());
    user.send(b"too early");
    plain::assert_closed(&plain::stream(connect.address()));
    place.await_counters("the box is quiet at first", |counters| {
        counters.too_early > before && counters.answers[0] == 0
    });
    user.assert_silent();
    assert_eq!(place.sessions(), []);
}

/// It cannot know what it accepted before.
#[test]
fn a_box_without_its_state_is_quiet_at_first() {
    let place = Place::new("quiet", METHOD);
    let target = Echo::new();
    let state = place.file("state");
    let serve = place.serve(&["--state", &state]);
    let address = serve.address();
    let connect = place.connect(address, target.address, &[]);
    assert_quiet(&place, &connect);
    serve.kill();
    // The minute is not over.
    let serve = place.serve_at(address, &["--state", &state]);
    assert_quiet(&place, &connect);
    serve.kill();
    fs::write(&state, plain::bytes(1, 30_000)).expect("the state is damaged");
    let _serve = place.serve_at(address, &["--state", &state]);
    assert_quiet(&place, &connect);
}
