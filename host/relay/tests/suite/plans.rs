//! Plans of a long report.

use relay::{Method, Piece, Plan, Refusal, SealSession, Table, MAX_DATAGRAM};

use crate::common::{addresses, key, nonce, payload, peer, short_address, CLIENT_ID, CLOCK};

/// Bytes of a datagram besides padding and piece, to the short address.
const BESIDES: usize = 43 + 5;

fn made(limit: usize, length: usize, words: &mut [u64]) -> Result<Plan<'_>, Refusal> {
    Plan::make(Method::Aes128Gcm, &short_address(), limit, length, words)
}

fn is_good(limit: usize, length: usize, words: &[u64]) -> Result<bool, Refusal> {
    Plan::check(Method::Aes128Gcm, &short_address(), limit, length, words)
        .map(|plan| plan.is_some())
}

#[test]
fn a_byte_more_takes_a_datagram_more() {
    let limit = BESIDES + 1_450;
    for (length, datagrams) in [
        (0, 0),
        (1, 1),
        (1_450, 1),
        (1_451, 2),
        (2_900, 2),
        (2_901, 3),
    ] {
        let mut words = [7; 8];
        let plan = made(limit, length, &mut words).unwrap();
        assert_eq!(plan.datagrams(), datagrams, "{length}");
        assert_eq!(plan.pieces().len(), datagrams);
        assert_eq!(
            plan.into_iter().map(|piece| piece.length).sum::<usize>(),
            length
        );
        assert_eq!(is_good(limit, length, plan.words()), Ok(true));
        assert!(words[2 * datagrams..].iter().all(|&word| word == 7));
    }
}

#[test]
fn refusals_write_nothing() {
    for (limit, length, lent, refusal) in [
        (MAX_DATAGRAM + 1, 0, 2, Refusal::Argument),
        (BESIDES, 1, 2, Refusal::Argument),
        (BESIDES, 1, 0, Refusal::Argument),
        (BESIDES + 1, 1, 1, Refusal::Room),
        (BESIDES + 1, usize::MAX, 6, Refusal::Room),
        (BESIDES + 2, usize::MAX, 6, Refusal::Room),
    ] {
        let mut words = vec![7; lent];
        assert_eq!(
            made(limit, length, &mut words),
            Err(refusal),
            "{limit} {length}"
        );
        assert_eq!(words, vec![7; lent]);
    }
    assert_eq!(is_good(BESIDES, 1, &[]), Err(Refusal::Argument));
    assert_eq!(is_good(0, 0, &[]), Ok(true));
}

#[test]
fn only_good_plans_pass() {
    let limit = BESIDES + 10;
    for (words, good) in [
        (&[10, 0, 5, 5][..], true),
        (&[5, 5, 10, 0], true),
        (&[8, 2, 7, 3], true),
        (&[10, 0, 5, 6], false),
        (&[11, 0, 4, 0], false),
        (&[10, 0, 4, 0], false),
        (&[10, 0, 5], false),
        (&[10, 0, 5, 0, 0], false),
        (&[10, 0, 4, 0, 1, 0], false),
        (&[10, 0, 5, 0, 0, 0], false),
        (&[10, 0, 5, u64::MAX - 4], false),
        (&[10, 0, 5, 65_536], false),
        (&[u64::MAX, 0, 16, 0], false),
        (&[], false),
    ] {
        assert_eq!(is_good(limit, 15, words), Ok(good), "{words:?}");
    }
}

#[test]
fn a_plan_is_its_pieces() {
    let words = [8, 2, 7, 3];
    let plan = Plan::check(
        Method::Aes256Gcm,
        &short_address(),
        BESIDES + 10,
        15,
        &words,
    )
    .unwrap()
    .expect("it is good");
    let pieces = [(8, 2), (7, 3)].map(|(length, padding)| Piece { length, padding });
    assert!(plan.into_iter().eq(pieces));
    assert_eq!(format!("{plan:?}"), format!("{pieces:?}"));
    assert_eq!(plan.words(), words);
}

/// Each datagram of a plan is sealed, within the limit; a server that opens them in order has the
/// report.
#[test]
fn a_report_arrives() {
    let report = payload(5_000);
    for method in Method::ALL {
        for address in addresses() {
            let mut session = SealSession::client(CLIENT_ID);
            let limit = session.sealed_len(method, &address, 0, 999).unwrap();
            let mut words = [0; 20];
            let plan = Plan::make(method, &address, limit, report.len(), &mut words).unwrap();
            assert_eq!(plan.datagrams(), 6);
            let mut table = Table::new(60).unwrap();
            let (mut rest, mut received) = (&report[..], Vec::new());
            for piece in plan {
                let (text, behind) = rest.split_at(piece.length);
                let (mut datagram, mut plain) = (vec![0; limit], vec![0; limit]);
                let sealed = session
                    .seal(
                        &key(method),
                        nonce(method),
                        CLOCK,
                        &address,
                        piece.padding,
                        text,
                        &mut datagram,
                    )
                    .unwrap();
                let header = table
                    .open_server(&key(method), CLOCK, peer(), &datagram[..sealed], &mut plain)
                    .unwrap();
                received.extend_from_slice(header.payload(&plain));
                rest = behind;
            }
            assert_eq!(received, report);
        }
    }
}
