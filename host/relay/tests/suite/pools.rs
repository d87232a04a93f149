//! The salts that a server remembers.

use relay::{Method, Pool, Refusal, RequestStream};

use crate::common::*;

/// A request's head, sealed at a clock.
fn head(method: Method, salt: &[u8], clock: u64) -> Vec<u8> {
    let mut out = vec![0; 256];
    let (_, length) = RequestStream::seal(
        &key(method),
        salt,
        clock,
        &short_address(),
        1,
        b"",
        &mut out,
    )
    .unwrap();
    out.truncate(length);
    out
}

fn open(pool: &mut Pool, method: Method, clock: u64, head: &[u8]) -> Result<(), Refusal> {
    RequestStream::open(&key(method), clock, head, pool).map(|_| ())
}

fn numbered_salt(method: Method, number: u64) -> Vec<u8> {
    let mut salt = salt(method).to_vec();
    salt[..8].copy_from_slice(&number.to_be_bytes());
    salt
}

#[test]
fn a_new_pool_has_no_salts() {
    for method in Method::ALL {
        let pool = Pool::new(method);
        assert_eq!(pool.method(), Some(method));
        assert_eq!(pool.kept(0), 0);
        assert_eq!(pool.words()[0], method.number());
        assert!(pool.words()[1..].iter().all(|&word| word == 0));
    }
}

#[test]
fn a_salt_is_kept_for_60_seconds() {
    for method in Method::ALL {
        let mut pool = Pool::new(method);
        open(&mut pool, method, 1_000, &head(method, salt(method), 1_000)).unwrap();
        for (clock, kept) in [(990, 1), (1_060, 1), (1_061, 0)] {
            assert_eq!(pool.kept(clock), kept);
            let mut copy = Pool::from_words(pool.words());
            let same_salt = head(method, salt(method), clock);
            let opened = open(&mut copy, method, clock, &same_salt);
            assert_eq!(opened.err(), (kept == 1).then_some(Refusal::Replay));
        }
    }
}

/// Were the salt forgotten at 60 seconds, this head would be taken again.
#[test]
fn a_head_from_30_seconds_ahead_is_never_taken_twice() {
    for method in Method::ALL {
        let mut pool = Pool::new(method);
        let head = head(method, salt(method), 1_030);
        open(&mut pool, method, 1_000, &head).unwrap();
        for clock in 1_000..=1_060 {
            assert_eq!(open(&mut pool, method, clock, &head), Err(Refusal::Replay));
        }
        assert_eq!(open(&mut pool, method, 1_061, &head), Err(Refusal::Time));
    }
}

#[test]
fn the_257th_salt_waits_until_one_is_forgotten() {
    for method in Method::ALL {
        let mut pool = Pool::new(method);
        for number in 0..256 {
            let clock = CLOCK + u64::from(number != 0);
            let head = head(method, &numbered_salt(method, number), clock);
            open(&mut pool, method, clock, &head).unwrap();
        }
        let clock = CLOCK + 60;
        let newcomer = head(method, &numbered_salt(method, 256), clock);
        let words = *pool.words();
        assert_eq!(
            open(&mut pool, method, clock, &newcomer),
            Err(Refusal::Full)
        );
        assert_eq!(pool.words(), &words);
        // A known salt is a replay even then.
        let known = head(method, &numbered_salt(method, 9), clock);
        assert_eq!(open(&mut pool, method, clock, &known), Err(Refusal::Replay));
        let clock = CLOCK + 61;
        assert_eq!(open(&mut pool, method, clock, &newcomer), Ok(()));
        assert_eq!(pool.kept(clock), 256);
    }
}

/// A front that is cut off stores nothing; one that was accepted is a replay from then
/// on, whatever the variable header behind it turns out to be.
#[test]
fn a_salt_is_stored_with_the_front() {
    for method in Method::ALL {
        let (mut pool, mut out) = (Pool::new(method), [0; 64]);
        let (head, front) = (head(method, salt(method), CLOCK), method.salt_len() + 27);
        for length in 0..front {
            let opened = open(&mut pool, method, CLOCK, &head[..length]);
            assert_eq!(opened, Err(Refusal::More { wanted: front }));
            assert_eq!(pool.kept(CLOCK), 0);
        }
        let (mut stream, _) =
            RequestStream::open(&key(method), CLOCK, &head[..front], &mut pool).unwrap();
        let mut forged = head[front..].to_vec();
        forged[0] ^= 1;
        for bytes in [&head[front..head.len() - 1], &forged, &head[front..]] {
            assert!(stream.open_variable(bytes, &mut out).is_err());
            assert_eq!(pool.kept(CLOCK), 1);
            let again = open(&mut pool, method, CLOCK + 30, &head);
            assert_eq!(again, Err(Refusal::Replay));
        }
        assert!(stream.is_ended());
    }
}

#[test]
fn a_pool_goes_on_after_it_was_stored() {
    for method in Method::ALL {
        let mut pool = Pool::new(method);
        let head = head(method, salt(method), CLOCK);
        open(&mut pool, method, CLOCK, &head).unwrap();
        let mut restored = Pool::from_words(pool.words());
        let again = open(&mut restored, method, CLOCK, &head);
        assert_eq!(again, Err(Refusal::Replay));
    }
}

/// A salt of 32 bytes is told from another in its last byte too, and a pool serves its
/// own method alone.
#[test]
fn a_pool_compares_whole_salts_of_its_method() {
    for method in Method::ALL {
        let mut pool = Pool::new(method);
        let mut other = salt(method).to_vec();
        *other.last_mut().unwrap() ^= 1;
        for salt in [salt(method), &other] {
            let head = head(method, salt, CLOCK);
            assert_eq!(open(&mut pool, method, CLOCK, &head), Ok(()));
            assert_eq!(open(&mut pool, method, CLOCK, &head), Err(Refusal::Replay));
        }
        for owner in Method::ALL.into_iter().filter(|&owner| owner != method) {
            let head = head(method, salt(method), CLOCK);
            let opened = open(&mut Pool::new(owner), method, CLOCK, &head);
            assert_eq!(opened, Err(Refusal::Settings));
        }
    }
}

/// Method 1 reads two words of a stored salt, whatever stands in the last two.
#[test]
fn junk_behind_a_short_salt_hides_no_replay() {
    let method = Method::Aes128Gcm;
    let mut pool = Pool::new(method);
    let head = head(method, salt(method), CLOCK);
    open(&mut pool, method, CLOCK, &head).unwrap();
    let mut words = *pool.words();
    assert_eq!(words[5..7], [0, 0]);
    words[5..7].fill(u64::MAX);
    let mut pool = Pool::from_words(&words);
    assert_eq!(open(&mut pool, method, CLOCK, &head), Err(Refusal::Replay));
}
