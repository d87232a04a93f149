//! Streams that are written.

use std::io::{self, ErrorKind, Write};
use std::slice;

use relay::io::{refusal, Buffers, Outgoing};
use relay::{sip004, Method, Refusal};

use crate::common::{key, payload, salt, short_address};
use crate::wires::{older_key, other_salt, sealed, still, with_outgoing, written};
use crate::wires::{Kind, Narrow, Slow};

fn payloads(kind: Kind) -> Vec<Vec<u8>> {
    let longest = kind.longest();
    // A request's head has less room for its first payload.
    [7, 1, longest, 2, 1_400, longest - 1].map(payload).to_vec()
}

#[test]
fn what_is_written_is_what_the_library_seals() {
    for kind in Kind::all() {
        let mut wire = Vec::new();
        written(kind, &payloads(kind), &mut wire).unwrap();
        assert!(wire == sealed(kind, &payloads(kind)).bytes, "{kind:?}");
    }
}

/// More than a chunk holds is written in part, as `Write` says, and `write_all` goes on.
#[test]
fn a_long_text_is_several_chunks() {
    for kind in Kind::all() {
        let longest = kind.longest();
        let text = payload(2 * longest + 5);
        let first = payload(3);
        let mut wire = Vec::new();
        with_outgoing(
            kind,
            slice::from_ref(&first),
            &mut wire,
            |outgoing, rest| {
                for payload in rest {
                    outgoing.write_all(payload)?;
                }
                assert_eq!(outgoing.write(&text)?, longest);
                outgoing.write_all(&text[longest..])
            },
        )
        .unwrap();
        let mut chunks = vec![first];
        chunks.extend(text.chunks(longest).map(<[u8]>::to_vec));
        assert!(wire == sealed(kind, &chunks).bytes, "{kind:?}");
    }
}

#[test]
fn an_empty_write_writes_nothing() {
    for kind in Kind::all() {
        let texts = [payload(3), payload(4)];
        let mut wire = Vec::new();
        with_outgoing(kind, &texts, &mut wire, |outgoing, rest| {
            assert_eq!(outgoing.write(b"")?, 0);
            outgoing.flush()?;
            for payload in rest {
                outgoing.write_all(payload)?;
                assert_eq!(outgoing.write(b"")?, 0);
                assert_eq!(outgoing.send_from(&mut io::empty())?, 0);
            }
            Ok(())
        })
        .unwrap();
        assert!(wire == sealed(kind, &texts).bytes, "{kind:?}");
    }
    // Not even a head.
    let (mut wire, mut buffers) = (Vec::new(), Buffers::new());
    let method = sip004::Method::Aes192Gcm;
    let salt = &[7; 24];
    let outgoing = Outgoing::sip004(&mut wire, &older_key(method), salt, &mut buffers);
    assert_eq!(outgoing.unwrap().write(b"").unwrap(), 0);
    assert_eq!(wire, b"");
}

#[test]
fn a_source_is_sent_read_by_read() {
    for kind in Kind::all() {
        let (first, text) = (payload(3), payload(20));
        let mut wire = Vec::new();
        with_outgoing(
            kind,
            slice::from_ref(&first),
            &mut wire,
            |outgoing, rest| {
                for payload in rest {
                    outgoing.write_all(payload)?;
                }
                let mut source = Slow::new(&text, 8, Some(ErrorKind::Interrupted));
                let lengths = [8, 8, 4, 0].map(|_| outgoing.send_from(&mut source).unwrap());
                assert_eq!(lengths, [8, 8, 4, 0]);
                let mut source = Slow::new(&text, 8, Some(ErrorKind::TimedOut));
                let error = outgoing.send_from(&mut source).unwrap_err();
                assert_eq!(error.kind(), ErrorKind::TimedOut);
                assert_eq!(outgoing.send_from(&mut source)?, 8);
                // As much as a chunk holds.
                let long = payload(kind.longest() + 1);
                assert_eq!(outgoing.send_from(&mut &long[..])?, kind.longest());
                Ok(())
            },
        )
        .unwrap();
        let mut chunks = vec![first];
        chunks.extend(text.chunks(8).map(<[u8]>::to_vec));
        chunks.extend([payload(8), payload(kind.longest())]);
        assert!(wire == sealed(kind, &chunks).bytes, "{kind:?}");
    }
}

/// Wherever a sink fails, what it took is the front of the one wire that there is under these
/// counters, and nothing is sealed behind it.
#[test]
fn a_stream_is_broken_behind_a_failed_write() {
    for kind in Kind::all() {
        let texts = [payload(3), payload(4), payload(5)];
        let wire = sealed(kind, &texts).bytes;
        for room in 0..wire.len() {
            let mut sink = Narrow {
                room,
                ..Narrow::default()
            };
            let failed = with_outgoing(kind, &texts, &mut sink, |outgoing, rest| {
                let failed = rest.iter().try_for_each(|text| outgoing.write_all(text));
                assert_eq!(failed.unwrap_err().kind(), ErrorKind::ConnectionReset);
                for text in [&b"more"[..], b""] {
                    let error = outgoing.write(text).unwrap_err();
                    assert_eq!(error.kind(), ErrorKind::BrokenPipe);
                }
                let error = outgoing.send_from(&mut &b"more"[..]).unwrap_err();
                assert_eq!(error.kind(), ErrorKind::BrokenPipe);
                Ok(())
            });
            if let Err(error) = failed {
                assert_eq!(error.kind(), ErrorKind::ConnectionReset);
            }
            assert!(sink.taken == wire[..room], "{kind:?} {room}");
        }
    }
}

#[test]
fn an_interrupted_write_is_made_again_and_a_blocked_one_breaks() {
    for kind in Kind::all() {
        let texts = [payload(3), payload(4)];
        let wire = sealed(kind, &texts).bytes;
        let mut sink = Narrow {
            room: usize::MAX,
            errors: [ErrorKind::Interrupted, ErrorKind::Interrupted].into(),
            ..Narrow::default()
        };
        written(kind, &texts, &mut sink).unwrap();
        assert!(sink.taken == wire);
        let mut sink = Narrow {
            room: usize::MAX,
            errors: [ErrorKind::WouldBlock].into(),
            ..Narrow::default()
        };
        let error = written(kind, &texts, &mut sink).unwrap_err();
        assert_eq!((error.kind(), sink.taken.len()), (ErrorKind::WouldBlock, 0));
    }
}

/// Lengths that no salt has.
const NO_SALT: [usize; 4] = [0, 15, 33, 100];

#[test]
fn a_request_that_may_not_be_sealed_is_told() {
    let (clock, mut buffers) = (still(), Buffers::new());
    for method in Method::ALL {
        let (key, salt, target) = (key(method), salt(method), short_address());
        let mut wire = Vec::new();
        let mut request = |salt: &[u8], padding, payload: &[u8]| {
            let (sink, buffers) = (&mut wire, &mut buffers);
            Outgoing::request(sink, &key, salt, &clock, &target, padding, payload, buffers)
                .map(|_| ())
                .map_err(|error| refusal(&error))
        };
        for length in NO_SALT {
            let refused = request(&payload(length), 1, b"");
            assert_eq!(refused, Err(Some(Refusal::Settings)));
        }
        assert_eq!(request(salt, 0, b""), Err(Some(Refusal::Argument)));
        let longest = payload(65_535 - 2 - 5);
        assert_eq!(request(salt, 1, &longest), Err(Some(Refusal::Length)));
        assert_eq!(request(salt, 0, &longest), Ok(()));
        assert_eq!(wire.len(), salt.len() + 27 + 65_535 + 16);
    }
}

#[test]
fn salts_of_a_wrong_length_are_told() {
    let (clock, mut buffers) = (still(), Buffers::new());
    for wrong in NO_SALT.map(payload) {
        for method in Method::ALL {
            let (key, mut wire) = (key(method), Vec::new());
            for (own, request) in [(&wrong[..], salt(method)), (other_salt(method), &wrong)] {
                let sink = &mut wire;
                let mut response =
                    Outgoing::response(sink, &key, own, request, &clock, &mut buffers);
                for _ in 0..2 {
                    let error = response.write(b"text").unwrap_err();
                    assert_eq!(refusal(&error), Some(Refusal::Settings));
                }
            }
            assert_eq!(wire, b"");
        }
        for method in sip004::Method::ALL {
            let key = older_key(method);
            let error = Outgoing::sip004(io::sink(), &key, &wrong, &mut buffers).unwrap_err();
            assert_eq!(error.kind(), ErrorKind::InvalidData);
            assert_eq!(refusal(&error), Some(Refusal::Settings));
        }
    }
}
