//! What options of both boxes do.

use std::net::{Ipv4Addr, Ipv6Addr, TcpListener, UdpSocket};
use std::sync::mpsc;
use std::thread;
use std::time::Instant;

use crate::place::{Place, ANY, METHOD};
use crate::plain::{self, User};
use crate::program::{self, Program};
use crate::target::{send_back, Echo, Target};
use crate::wait;
use crate::PATIENCE;

fn assert_both_work(connect: &Program) {
    User::new(connect.address()).exchange(b"a datagram");
    plain::exchange_stream(connect.address(), b"a stream");
}

#[test]
fn a_box_with_a_target_sends_nowhere_else() {
    let place = Place::new("target", METHOD);
    let [target, other] = [(); 2].map(|()| Echo::new());
    let serve = place.serve(&["--target", &target.address.to_string()]);
    let to_other = place.connect(serve.address(), other.address, &[]);
    let user = User::new(to_other.address());
    user.send(b"elsewhere");
    plain::assert_closed(&plain::stream(to_other.address()));
    place.await_counters(
        "the other target is not allowed, by datagram or stream",
        |counters| counters.not_allowed == 2,
    );
    user.assert_silent();
    assert_eq!(place.service().counters.forwarded, 0);
    assert_both_work(&place.connect(serve.address(), target.address, &[]));
}

#[test]
fn a_target_may_be_a_name() {
    let place = Place::new("name", METHOD);
    let target = Echo::new();
    let serve = place.serve(&[]);
    let name = format!("localhost:{}", target.address.port());
    assert_both_work(&place.connect(serve.address(), name, &[]));
    let unknown = place.connect(serve.address(), "nobody.invalid:9", &[]);
    let user = User::new(unknown.address());
    user.send(b"to nobody");
    plain::assert_closed(&plain::stream(unknown.address()));
    place.await_counters("the name is not resolved", |counters| {
        counters.unresolved == 1
    });
    user.assert_silent();
}

#[test]
fn no_datagram_is_longer_than_the_limit() {
    let place = Place::new("limit", METHOD);
    let target = Echo::new();
    let serve = place.serve(&["--limit", "1000"]);
    let connect = place.connect(serve.address(), target.address, &[]);
    let user = User::new(connect.address());
    // 32 bytes around a header of 19 and an address of 7.
    user.exchange(&[1; 1_000 - 58]);
    user.send(&[2; 1_000 - 57]);
    place.await_counters("the reply is too long", |counters| counters.too_long == 1);
    user.exchange(b"short");
    let connect = place.connect(serve.address(), target.address, &["--limit", "500"]);
    let user = User::new(connect.address());
    // A client's header has 11.
    user.send(&[3; 500 - 49]);
    user.exchange(&[4; 500 - 50]);
    place.await_counters("four datagrams", |counters| counters.answers[0] == 4);
}

/// A target's socket at the box is no open door.
#[test]
fn a_reply_from_elsewhere_is_not_passed_on() {
    let place = Place::new("elsewhere", METHOD);
    let (told, heard) = mpsc::channel();
    let socket = UdpSocket::bind((Ipv4Addr::LOCALHOST, 0)).expect("a target is bound");
    let target = Target::datagrams(socket, move |socket, from, payload| {
        let _ = told.send(from);
        send_back(socket, from, payload);
    });
    let serve = place.serve(&[]);
    let connect = place.connect(serve.address(), target.address, &[]);
    let user = User::new(connect.address());
    user.exchange(b"first");
    let session = heard
        .recv_timeout(PATIENCE)
        .expect("the target hears the box");
    let stranger = UdpSocket::bind((Ipv4Addr::LOCALHOST, 0)).expect("a stranger is bound");
    for _ in 0..10 {
        stranger
            .send_to(b"forged", session)
            .expect("a stranger sends");
    }
    user.exchange(b"second");
    user.assert_silent();
    place.await_counters("no other reply", |counters| {
        (counters.replied, counters.not_allowed) == (2, 10)
    });
}

#[test]
fn services_of_both_editions_stand_side_by_side() {
    let place = Place::new("both", METHOD);
    let old = Place::new("both-2017", "aes-256-gcm");
    let target = Echo::new();
    let key = old.file("key");
    let serve = place.serve(&["--listen", ANY, "--method", old.method, "--key-file", &key]);
    let [first, second] = serve.addresses[..] else {
        panic!("two services listen, not {}", serve.addresses.len());
    };
    let boxes = [
        place.connect(first, target.address, &[]),
        old.connect(second, target.address, &[]),
    ];
    boxes.iter().for_each(assert_both_work);
    wait::until("a datagram is counted at each", || {
        let services = place.snapshot().services;
        services
            .iter()
            .all(|service| service.counters.answers[0] == 1)
    });
}

#[test]
fn a_settings_file_takes_the_place_of_options() {
    let place = Place::new("settings", METHOD);
    let target = Echo::new();
    let (file, key) = (place.file("settings"), place.file("key"));
    let to = target.address.to_string();
    program::answer(&[
        "settings",
        "write",
        &file,
        "--edition",
        "1",
        "--method",
        METHOD,
        "--retention",
        "90",
        "--limit",
        "1200",
        "--target",
        &to,
    ]);
    let start = |own: &[&str]| {
        let all = [own, &["--settings", &file, "--key-file", &key]].concat();
        Program::start(&all.into_iter().map(String::from).collect::<Vec<_>>())
    };
    let serve = start(&["serve", "--status", &place.file("status"), "--listen", ANY]);
    let server = serve.address().to_string();
    let connect = start(&["connect", "--listen", ANY, "--server", &server]);
    assert_both_work(&connect);
    let table = place.service().table.expect("the box has a table");
    assert_eq!(table.retention(), 90);
}

#[test]
fn over_ipv6() {
    let Ok(target) = Echo::at(Ipv6Addr::LOCALHOST.into()) else {
        // This machine has none.
        return;
    };
    let place = Place::new("ipv6", METHOD);
    let serve = place.serve_at("[::1]:0", &[]);
    let connect = place.connect_at("[::1]:0", serve.address(), target.address, &[]);
    assert_both_work(&connect);
    let mixed = place.connect(serve.address(), target.address, &[]);
    assert_both_work(&mixed);
}

#[test]
fn a_silent_stream_is_closed() {
    let place = Place::new("idle", METHOD);
    let target = Echo::new();
    let serve = place.serve(&["--idle", "1"]);
    let connect = place.connect(serve.address(), target.address, &[]);
    let begun = Instant::now();
    let user = plain::stream(connect.address());
    plain::assert_closed(&user);
    let seconds = begun.elapsed().as_secs_f32();
    assert!((0.5..4.0).contains(&seconds), "closed after {seconds} s");
}

#[test]
fn streams_are_bounded_in_number() {
    let place = Place::new("streams", METHOD);
    let target = Echo::new();
    let serve = place.serve(&["--streams", "2"]);
    let connect = place.connect(serve.address(), target.address, &[]);
    let branch = connect.address();
    thread::scope(|scope| {
        for seed in 0..6 {
            scope.spawn(move || plain::exchange_stream(branch, &plain::bytes(seed, 50_000)));
        }
    });
}

/// What is missing or wrong is told, and nothing is started.
#[test]
fn misuse_is_told() {
    let place = Place::new("misuse", METHOD);
    let taken = TcpListener::bind((Ipv4Addr::LOCALHOST, 0)).expect("a port is free");
    let address = taken.local_addr().expect("a listener has an address");
    let (key, state, address) = (place.file("key"), place.file("state"), address.to_string());
    for (options, told) in [
        ("", "--listen is missing"),
        ("--method M", "--method stands before any --listen"),
        ("--listen ANY --method M", "BHAJNOLITH_KEY is not set"),
        ("--listen ANY --method aes-256-gcm --key-file KEY", "32"),
        ("--listen ANY --method rot13 --key-file KEY", "rot13"),
        (
            "--listen ANY --method aes-128-gcm --key-file KEY --state STATE",
            "--state",
        ),
        ("--listen TAKEN --method M --key-file KEY", &address),
        (
            "--listen ANY --method M --key-file KEY --retention 59",
            "59",
        ),
    ] {
        let words = options.split_whitespace().map(|word| match word {
            "ANY" => ANY,
            "M" => METHOD,
            "KEY" => &key,
            "STATE" => &state,
            "TAKEN" => &address,
            word => word,
        });
        let output = program::run(&["serve"].into_iter().chain(words).collect::<Vec<_>>());
        let errors = String::from_utf8_lossy(&output.stderr);
        assert_eq!(output.status.code(), Some(2), "{options}: {errors}");
        let front = errors.lines().next().unwrap_or_default();
        assert!(
            front.starts_with("bhajnolith: serve: ") && front.contains(told),
            "{front}"
        );
        assert!(output.stdout.is_empty());
    }
}
