//! Streams that are read.

use std::io::{self, BufRead, ErrorKind, Read, Write};
use std::net::{Ipv4Addr, Shutdown, TcpListener, TcpStream};
use std::sync::Mutex;
use std::thread;
use std::time::Duration;

use relay::io::{refusal, Buffers, Incoming, Outgoing};
use relay::{sip004, Address, Clock, Method, Pool, Refusal};

use crate::common::{addresses, key, payload, salt, short_address};
use crate::wires::{older_key, older_salt, other_salt, read, sealed, still, with_incoming};
use crate::wires::{Kind, Slow, STILL};

/// A text that fits a few chunks.
const SHORT: [usize; 4] = [5, 1, 16, 3];

#[test]
fn pieces_of_any_size_give_the_text() {
    for kind in Kind::all() {
        let longest = kind.longest();
        let payloads = [9, 1, longest, 2, longest - 1, 1_400].map(payload);
        let wire = sealed(kind, &payloads).bytes;
        for (most, error) in [
            (1, None),
            (1, Some(ErrorKind::Interrupted)),
            (17, None),
            (1_460, None),
            (usize::MAX, Some(ErrorKind::Interrupted)),
        ] {
            let (text, ended) = read(kind, Slow::new(&wire, most, error));
            ended.unwrap();
            assert!(text == payloads.concat(), "{kind:?} by {most}");
        }
    }
}

/// What a chunk gives is there as soon as the chunk is whole, and nothing behind it is waited
/// for.
#[test]
fn a_chunk_is_given_when_it_is_whole() {
    for kind in Kind::all() {
        let payloads = SHORT.map(payload);
        let wire = sealed(kind, &payloads);
        for (end, length) in wire.ends.into_iter().filter(|&(_, length)| length > 0) {
            let source = wire.bytes[..end].chain(Slow::new(&[], 1, Some(ErrorKind::WouldBlock)));
            with_incoming(kind, source, |incoming| {
                let mut text = vec![0; length];
                incoming.read_exact(&mut text)?;
                assert_eq!(text, payloads.concat()[..length]);
                assert_eq!(incoming.read(&mut [])?, 0);
                let error = incoming.read(&mut [0]).unwrap_err();
                assert_eq!(error.kind(), ErrorKind::WouldBlock);
                Ok(())
            })
            .unwrap();
        }
    }
}

#[test]
fn a_source_that_ends_anywhere() {
    for kind in Kind::all() {
        let payloads = SHORT.map(payload);
        let (wire, text) = (sealed(kind, &payloads), payloads.concat());
        for length in 0..=wire.bytes.len() {
            let (given, ended) = read(kind, &wire.bytes[..length]);
            // Whole chunks were given, and it is well where one could begin.
            let whole = wire.ends.iter().rfind(|(end, _)| *end <= length);
            let whole = whole.copied().unwrap_or_default();
            assert_eq!(given, text[..whole.1], "{kind:?} {length}");
            match ended {
                Ok(()) => assert_eq!(length, whole.0),
                Err(error) => {
                    assert_eq!(error.kind(), ErrorKind::UnexpectedEof);
                    assert!(wire.ends.iter().all(|(end, _)| *end != length));
                }
            }
        }
    }
}

#[test]
fn a_source_that_is_damaged_anywhere() {
    for kind in Kind::all() {
        let payloads = SHORT.map(payload);
        let (wire, text) = (sealed(kind, &payloads), payloads.concat());
        for place in 0..wire.bytes.len() {
            let mut bytes = wire.bytes.clone();
            bytes[place] ^= 1 << (place % 8);
            let whole = wire.ends.iter().rfind(|(end, _)| *end <= place);
            // A salt that is damaged shows with the length behind it.
            let whole = whole.map_or(0, |(_, length)| *length);
            let mut given = Vec::new();
            let ended = with_incoming(kind, &bytes[..], |incoming| {
                let error = incoming.read_to_end(&mut given).unwrap_err();
                // It is over.
                let again = incoming.read(&mut [0; 9]).unwrap_err();
                assert_eq!(refusal(&again), refusal(&error));
                Err::<(), _>(error)
            });
            let error = ended.unwrap_err();
            assert_eq!(error.kind(), ErrorKind::InvalidData);
            assert_eq!(refusal(&error), Some(Refusal::NotAuthentic));
            assert_eq!(given, text[..whole], "{kind:?} {place}");
        }
    }
}

/// A sender whose head comes in two parts, or slowly, is no replay of itself; its bytes are
/// one to others. A forged variable header leaves the salt known.
#[test]
fn a_head_in_parts_is_no_replay_of_itself() {
    for method in Method::ALL {
        let wire = sealed(Kind::Request(method), &SHORT.map(payload)).bytes;
        let (clock, mut buffers) = (still(), Buffers::new());
        let front = method.salt_len() + 27;
        for place in 0..wire.len() {
            let pool = Mutex::new(Pool::new(method));
            let mut open = |source: &mut dyn Read| {
                Incoming::request(source, &key(method), &clock, &pool, &mut buffers)
                    .map(|(head, _)| assert_eq!(head.salt(), salt(method)))
                    .map_err(|error| (error.kind(), refusal(&error)))
            };
            assert_eq!(open(&mut wire[..place].chain(&wire[place..])), Ok(()));
            let replay = Err((ErrorKind::InvalidData, Some(Refusal::Replay)));
            assert_eq!(open(&mut &wire[..]), replay);
            assert_eq!(pool.lock().unwrap().kept(STILL), 1);

            let pool = Mutex::new(Pool::new(method));
            let cut = &wire[..place.min(front + 5)];
            let opened = Incoming::request(cut, &key(method), &clock, &pool, &mut buffers);
            assert_eq!(opened.unwrap_err().kind(), ErrorKind::UnexpectedEof);
            let kept = pool.lock().unwrap().kept(STILL);
            assert_eq!(kept, usize::from(place >= front));
        }
        let mut forged = wire.clone();
        forged[front] ^= 1;
        let pool = Mutex::new(Pool::new(method));
        for (bytes, expected) in [(&forged, Refusal::NotAuthentic), (&wire, Refusal::Replay)] {
            let opened = Incoming::request(&bytes[..], &key(method), &clock, &pool, &mut buffers);
            assert_eq!(refusal(&opened.unwrap_err()), Some(expected));
        }
    }
}

/// Behind a timeout of the source reading goes on where it was.
#[test]
fn a_timeout_loses_nothing() {
    for kind in Kind::all() {
        let payloads = SHORT.map(payload);
        let wire = sealed(kind, &payloads);
        // The head of a request is read in one call.
        let (first, _) = wire.ends[0];
        let (head, rest) = wire.bytes.split_at(first);
        let source = head.chain(Slow::new(rest, 1, Some(ErrorKind::TimedOut)));
        let (mut text, mut timeouts) = (Vec::new(), 0);
        with_incoming(kind, source, |incoming| {
            while let Err(error) = incoming.read_to_end(&mut text) {
                assert_eq!(error.kind(), ErrorKind::TimedOut);
                timeouts += 1;
            }
            Ok(())
        })
        .unwrap();
        assert_eq!(text, payloads.concat());
        assert_eq!(timeouts, rest.len() + 1);
    }
}

#[test]
fn a_text_is_read_line_by_line() {
    for kind in Kind::all() {
        let payloads = [&b"first li"[..], b"ne\nsecond", b" line\n", b"third"].map(Vec::from);
        let wire = sealed(kind, &payloads).bytes;
        let lines = with_incoming(kind, &wire[..], |incoming| {
            incoming.lines().collect::<io::Result<Vec<_>>>()
        });
        assert_eq!(lines.unwrap(), ["first line", "second line", "third"]);
        with_incoming(kind, &wire[..], |incoming| {
            assert_eq!(incoming.fill_buf()?, b"first li");
            // More than there is.
            incoming.consume(usize::MAX);
            assert_eq!(incoming.fill_buf()?, b"ne\nsecond");
            Ok(())
        })
        .unwrap();
    }
}

#[test]
fn refusals_of_a_requests_head_are_told() {
    for method in Method::ALL {
        let wire = sealed(Kind::Request(method), &SHORT.map(payload)).bytes;
        let refused = |clock: &Clock, pool: Pool| {
            let (pool, mut buffers) = (Mutex::new(pool), Buffers::new());
            let opened = Incoming::request(&wire[..], &key(method), clock, &pool, &mut buffers);
            refusal(&opened.unwrap_err())
        };
        let late = Clock::new();
        late.hold(STILL + 31);
        assert_eq!(refused(&late, Pool::new(method)), Some(Refusal::Time));
        let other = Method::ALL.into_iter().find(|other| *other != method);
        let other = Pool::new(other.unwrap());
        assert_eq!(refused(&still(), other), Some(Refusal::Settings));
        // Every record in use, at this clock.
        let mut words = *Pool::new(method).words();
        for record in words[1..].chunks_exact_mut(6) {
            record[..2].copy_from_slice(&[1, STILL]);
        }
        let full = Pool::from_words(&words);
        assert_eq!(refused(&still(), full), Some(Refusal::Full));
    }
}

#[test]
fn refusals_of_a_responses_head_are_told() {
    for method in Method::ALL {
        let wire = sealed(Kind::Response(method), &SHORT.map(payload)).bytes;
        let refused = |clock: &Clock, salt: &[u8]| {
            let (key, mut buffers) = (key(method), Buffers::new());
            let mut incoming = Incoming::response(&wire[..], &key, clock, salt, &mut buffers);
            let error = incoming.read(&mut [0; 9]).unwrap_err();
            assert_eq!(error.kind(), ErrorKind::InvalidData);
            // It is over, though the clock would now do.
            clock.hold(STILL);
            let again = incoming.read(&mut [0; 9]).unwrap_err();
            assert_eq!(refusal(&again), refusal(&error));
            refusal(&error)
        };
        let early = Clock::new();
        early.hold(STILL - 31);
        assert_eq!(refused(&early, salt(method)), Some(Refusal::Time));
        let binding = refused(&still(), other_salt(method));
        assert_eq!(binding, Some(Refusal::Binding));
        for length in [0, 15, 33, 100] {
            let settings = refused(&still(), &payload(length));
            assert_eq!(settings, Some(Refusal::Settings));
        }
    }
}

/// The address in front of a text of the 2017 edition, whole and split, with empty chunks
/// between.
#[test]
fn an_address_is_read_from_its_chunks() {
    for method in sip004::Method::ALL {
        for address in addresses() {
            let text = [address.as_bytes(), b"rest"].concat();
            for length in [1, 2, 3, text.len()] {
                let mut payloads: Vec<Vec<u8>> = text.chunks(length).map(Vec::from).collect();
                payloads.insert(1, Vec::new());
                payloads.push(Vec::new());
                let wire = sealed(Kind::Sip004(method), &payloads).bytes;
                with_incoming(Kind::Sip004(method), &wire[..], |incoming| {
                    assert_eq!(incoming.read_address()?, address);
                    let mut rest = Vec::new();
                    incoming.read_to_end(&mut rest)?;
                    assert_eq!(rest, b"rest");
                    Ok(())
                })
                .unwrap();
            }
        }
        let read_address = |text: &[u8]| {
            let wire = sealed(Kind::Sip004(method), &[text.to_vec()]).bytes;
            with_incoming(Kind::Sip004(method), &wire[..], |incoming| {
                incoming.read_address()
            })
            .map_err(|error| (error.kind(), refusal(&error)))
        };
        let malformed = Err((ErrorKind::InvalidData, Some(Refusal::Malformed)));
        for text in [&[2; 30][..], &[0], b"GET /", &[3, 0, 0, 80]] {
            assert_eq!(read_address(text), malformed);
        }
        for text in [&b""[..], b"\x03", b"\x03\x01a\0", &[4; 18], &[1; 6]] {
            assert_eq!(read_address(text), Err((ErrorKind::UnexpectedEof, None)));
        }
    }
}

/// A source that says that it read more than it had room for.
struct Boaster(Vec<u8>);

impl Read for Boaster {
    fn read(&mut self, out: &mut [u8]) -> io::Result<usize> {
        let length = (&self.0[..]).read(out)?;
        self.0.drain(..length);
        Ok(length + 100_000)
    }
}

#[test]
fn a_source_that_boasts_makes_no_panic() {
    for kind in Kind::all() {
        let wire = sealed(kind, &SHORT.map(payload)).bytes;
        let (_, ended) = read(kind, Boaster(wire));
        assert_eq!(refusal(&ended.unwrap_err()), Some(Refusal::NotAuthentic));
    }
    let (mut buffers, method) = (Buffers::new(), sip004::Method::Aes128Gcm);
    let (key, salt) = (older_key(method), older_salt(method));
    let mut outgoing = Outgoing::sip004(io::sink(), &key, salt, &mut buffers).unwrap();
    let sent = outgoing.send_from(&mut Boaster(payload(10)));
    assert_eq!(sent.unwrap(), sip004::MAX_CHUNK);
}

#[test]
fn a_pool_whose_holder_panicked_is_used() {
    let (method, clock, mut buffers) = (Method::Aes128Gcm, still(), Buffers::new());
    let pool = Mutex::new(Pool::new(method));
    thread::scope(|scope| {
        let holder = scope.spawn(|| {
            let _held = pool.lock();
            panic!("with the pool");
        });
        assert!(holder.join().is_err());
    });
    assert!(pool.is_poisoned());
    let wire = sealed(Kind::Request(method), &[payload(3)]).bytes;
    let opened = Incoming::request(&wire[..], &key(method), &clock, &pool, &mut buffers);
    assert_eq!(opened.unwrap().0.address, short_address());
}

/// How long an end of a connection waits for the other.
const PATIENCE: Duration = Duration::from_secs(10);

fn connection() -> (TcpStream, TcpStream) {
    let listener = TcpListener::bind((Ipv4Addr::LOCALHOST, 0)).unwrap();
    let client = TcpStream::connect(listener.local_addr().unwrap()).unwrap();
    let server = listener.accept().unwrap().0;
    for socket in [&client, &server] {
        socket.set_read_timeout(Some(PATIENCE)).unwrap();
        socket.set_write_timeout(Some(PATIENCE)).unwrap();
    }
    (client, server)
}

/// The client ends its half and reads on; one after the other with the same buffers.
#[test]
fn one_half_of_a_connection_ends_before_the_other() {
    let [mut up, mut down, mut server_up, mut server_down] = [(); 4].map(|()| Buffers::new());
    for method in Method::ALL {
        let (client, server) = connection();
        let (key, clock, pool) = (key(method), Clock::new(), Mutex::new(Pool::new(method)));
        let (request, response) = (payload(100_000), payload(200_000));
        thread::scope(|scope| {
            scope.spawn(|| {
                let (head, mut incoming) =
                    Incoming::request(&server, &key, &clock, &pool, &mut server_up).unwrap();
                assert_eq!(head.address, short_address());
                let mut text = Vec::new();
                incoming.read_to_end(&mut text).unwrap();
                assert!(text == request);
                let (own, buffers) = (other_salt(method), &mut server_down);
                let mut outgoing =
                    Outgoing::response(&server, &key, own, head.salt(), &clock, buffers);
                let mut source = &response[..];
                while outgoing.send_from(&mut source).unwrap() > 0 {}
                server.shutdown(Shutdown::Write).unwrap();
            });
            let (salt, target) = (salt(method), short_address());
            let (first, rest) = request.split_at(1_000);
            Outgoing::request(&client, &key, salt, &clock, &target, 0, first, &mut up)
                .unwrap()
                .write_all(rest)
                .unwrap();
            client.shutdown(Shutdown::Write).unwrap();
            let mut incoming = Incoming::response(&client, &key, &clock, salt, &mut down);
            let mut text = Vec::new();
            incoming.read_to_end(&mut text).unwrap();
            assert!(text == response);
        });
    }
}

#[test]
fn a_connection_of_the_2017_edition() {
    let [mut up, mut down, mut server_up, mut server_down] = [(); 4].map(|()| Buffers::new());
    for method in sip004::Method::ALL {
        let (client, server) = connection();
        let (key, target) = (
            older_key(method),
            Address::name(b"example.com", 80).unwrap(),
        );
        let text = payload(100_000);
        thread::scope(|scope| {
            scope.spawn(|| {
                let mut incoming = Incoming::sip004(&server, &key, &mut server_up);
                assert_eq!(incoming.read_address().unwrap(), target);
                let salt = &salt(Method::Aes256Gcm)[..method.salt_len()];
                let mut outgoing = Outgoing::sip004(&server, &key, salt, &mut server_down).unwrap();
                io::copy(&mut incoming, &mut outgoing).unwrap();
                server.shutdown(Shutdown::Write).unwrap();
            });
            let mut echo = Vec::new();
            let (client, key) = (&client, &key);
            let (text, target, up) = (&text, &target, &mut up);
            scope.spawn(move || {
                let mut outgoing = Outgoing::sip004(client, key, older_salt(method), up).unwrap();
                outgoing.write_all(target.as_bytes()).unwrap();
                outgoing.write_all(text).unwrap();
                client.shutdown(Shutdown::Write).unwrap();
            });
            let mut incoming = Incoming::sip004(client, key, &mut down);
            incoming.read_to_end(&mut echo).unwrap();
            assert!(echo == *text);
        });
    }
}
