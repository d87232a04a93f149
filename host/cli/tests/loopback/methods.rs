//! Every method of both editions, over datagrams and streams.

use std::io::{self, Read, Write};
use std::net::{Ipv4Addr, Shutdown, SocketAddr, TcpListener, TcpStream};
use std::sync::mpsc::{self, Sender};
use std::thread;

use relay::{sip004, Address, Method, SealSession, MAX_DATAGRAM};

use crate::place::{Place, METHOD};
use crate::plain::{self, User};
use crate::program::Program;
use crate::target::{Echo, Target};
use crate::PATIENCE;

/// A method's name, and the longest payload that comes back in one datagram.
fn methods() -> Vec<(&'static str, usize)> {
    let target = Address::from(SocketAddr::from((Ipv4Addr::LOCALHOST, 1)));
    // A server's session, with another ID than its client's.
    let session = SealSession::from_words(&[1, 1, 2, 0]);
    let of_2022 = Method::ALL.map(|method| {
        let rest = session.sealed_len(method, &target, 0, 0);
        (method.name(), rest)
    });
    let of_2017 = sip004::Method::ALL.map(|method| {
        let rest = sip004::sealed_datagram_len(method, target.as_bytes().len());
        (method.name(), rest)
    });
    let all = of_2022.into_iter().chain(of_2017);
    all.map(|(name, rest)| {
        (
            name,
            MAX_DATAGRAM - rest.expect("no payload is not too long"),
        )
    })
    .collect()
}

/// A box and a branch whose traffic goes to a target.
fn boxes(place: &Place, target: SocketAddr) -> (Program, Program) {
    let serve = place.serve(&[]);
    let connect = place.connect(serve.address(), target, &[]);
    (serve, connect)
}

#[test]
fn datagrams_of_every_method_and_size() {
    for (method, longest) in methods() {
        let place = Place::new(&format!("udp-{method}"), method);
        let target = Echo::new();
        let (_serve, connect) = boxes(&place, target.address);
        let users = [(); 3].map(|()| User::new(connect.address()));
        for length in [0, 1, 15, 16, 17, 255, 1_024, 1_400, 9_000, 32_768, longest] {
            for (seed, user) in users.iter().enumerate() {
                user.exchange(&plain::bytes(seed as u64, length));
            }
        }
        users[0].send(&plain::bytes(0, longest + 1));
        users[1].exchange(b"the next one");
        users[0].exchange(b"and its own next one");
        users[0].assert_silent();
        place.await_counters("35 replies", |counters| counters.replied == 3 * 11 + 2);
    }
}

#[test]
fn streams_of_every_method() {
    for (method, _) in methods() {
        let place = Place::new(&format!("tcp-{method}"), method);
        let target = Echo::new();
        let (_serve, connect) = boxes(&place, target.address);
        for length in [0, 1, 17, 1_400, 16_383, 16_384, 65_535, 65_536] {
            plain::exchange_stream(connect.address(), &plain::bytes(1, length));
        }
        thread::scope(|scope| {
            for (seed, length) in [(2, 3_000_000), (3, 300_000), (4, 300_000), (5, 10)] {
                let branch = connect.address();
                scope.spawn(move || plain::exchange_stream(branch, &plain::bytes(seed, length)));
            }
        });
        place.await_counters("12 streams", |counters| counters.streams == 12);
    }
}

/// One method of each edition, for what does not depend on it.
const EDITIONS: [&str; 2] = [METHOD, "aes-256-gcm"];

#[test]
fn a_target_may_speak_first() {
    for method in EDITIONS {
        let place = Place::new(&format!("first-{method}"), method);
        let target = Target::streams(|mut connection| {
            connection.write_all(b"220 ready\r\n")?;
            let mut said = [0; 4];
            connection.read_exact(&mut said)?;
            connection.write_all(&said)
        });
        let (_serve, connect) = boxes(&place, target.address);
        let mut user = plain::stream(connect.address());
        let mut heard = [0; 11];
        user.read_exact(&mut heard)
            .expect("the target speaks first");
        assert_eq!(&heard, b"220 ready\r\n");
        user.write_all(b"quit").expect("the user answers");
        assert_eq!(plain::receive_all(&user), b"quit");
    }
}

#[test]
fn a_target_may_close_at_once_or_not_be_there() {
    for method in EDITIONS {
        let place = Place::new(&format!("closes-{method}"), method);
        let target = Target::streams(|_| Ok(()));
        let (serve, connect) = boxes(&place, target.address);
        plain::assert_closed(&plain::stream(connect.address()));
        let nobody = TcpListener::bind((Ipv4Addr::LOCALHOST, 0)).and_then(|l| l.local_addr());
        let nobody = nobody.expect("a port is free");
        let connect = place.connect(serve.address(), nobody, &[]);
        plain::assert_closed(&plain::stream(connect.address()));
    }
}

const LONG: usize = 1_000_000;

#[test]
fn a_user_may_end_first() {
    for method in EDITIONS {
        let place = Place::new(&format!("user-ends-{method}"), method);
        let target = Target::streams(|mut connection| {
            let mut question = Vec::new();
            connection.read_to_end(&mut question)?;
            connection.write_all(&plain::bytes(question.len() as u64, LONG))
        });
        let (_serve, connect) = boxes(&place, target.address);
        let answer = plain::send_and_receive(&plain::stream(connect.address()), b"question");
        plain::assert_same(&plain::bytes(8, LONG), &answer);
    }
}

#[test]
fn a_target_may_end_first() {
    for method in EDITIONS {
        let place = Place::new(&format!("target-ends-{method}"), method);
        let (told, heard) = mpsc::channel();
        let end = move |connection| end_then_receive(connection, &told);
        let target = Target::streams(end);
        let (_serve, connect) = boxes(&place, target.address);
        let mut user = plain::stream(connect.address());
        assert_eq!(plain::receive_all(&user), b"no more");
        let sent = plain::bytes(1, LONG);
        user.write_all(&sent).expect("the user goes on");
        user.shutdown(Shutdown::Write).expect("the user ends");
        let received = heard.recv_timeout(PATIENCE).expect("the target tells");
        plain::assert_same(&sent, &received);
    }
}

fn end_then_receive(mut connection: TcpStream, told: &Sender<Vec<u8>>) -> io::Result<()> {
    connection.write_all(b"no more")?;
    connection.shutdown(Shutdown::Write)?;
    let mut received = Vec::new();
    connection.read_to_end(&mut received)?;
    told.send(received).map_err(io::Error::other)
}

/// More users than there are streams at a time close theirs in the middle.
#[test]
fn users_may_vanish() {
    for method in EDITIONS {
        let place = Place::new(&format!("vanish-{method}"), method);
        let target = Echo::new();
        let (_serve, connect) = boxes(&place, target.address);
        for seed in 0..100 {
            let mut user = plain::stream(connect.address());
            let sent = user.write_all(&plain::bytes(seed, 50_000));
            sent.expect("the branch listens");
        }
        plain::exchange_stream(connect.address(), b"there is room");
    }
}

/// A datagram that reaches the target, though its answer is too long for the way back.
#[test]
fn a_reply_that_is_too_long_is_counted() {
    let (_, longest) = methods()[0];
    let place = Place::new("too-long", METHOD);
    let target = Echo::new();
    let (_serve, connect) = boxes(&place, target.address);
    let user = User::new(connect.address());
    // A client's header is 8 bytes shorter, as it names no other session.
    user.send(&plain::bytes(1, longest + 8));
    place.await_counters("a reply that is too long", |counters| {
        counters.too_long == 1
    });
    user.exchange(b"short");
    place.await_counters("two datagrams", |counters| counters.answers[0] == 2);
}
