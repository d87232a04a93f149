//! Sessions of two recordings by twos, so that two mornings lie side by side: IDs are random.

use super::Opened;

/// A client session of the first recording and one of the second, if there are any.
pub type Pair = [Option<u64>; 2];

/// A session that both have is its own other one. All others are paired by the order in which
/// they come, each in its recording.
pub fn pairs(opened: &[Vec<Opened>; 2]) -> Vec<Pair> {
    let [first, second] = opened.each_ref().map(|opened| sessions(opened));
    let mut others = second.iter().copied().filter(|id| !first.contains(id));
    let with_other = |id: &u64| match second.contains(id) {
        true => [Some(*id); 2],
        false => [Some(*id), others.next()],
    };
    let mut pairs: Vec<Pair> = first.iter().map(with_other).collect();
    pairs.extend(others.map(|id| [None, Some(id)]));
    pairs
}

/// For each index of both, whether its entries are of one series: of a pair's sessions, as far as
/// it is known whose they are.
pub fn same_series(opened: &[Vec<Opened>; 2]) -> Vec<bool> {
    let (pairs, [first, second]) = (pairs(opened), opened);
    let is_same = |(one, other): (&Opened, &Opened)| {
        let sessions = [one.session, other.session];
        sessions.contains(&None) || pairs.contains(&sessions)
    };
    first.iter().zip(second).map(is_same).collect()
}

/// In the order in which they come.
fn sessions(opened: &[Opened]) -> Vec<u64> {
    let mut sessions = Vec::new();
    for id in opened.iter().filter_map(|opened| opened.session) {
        if !sessions.contains(&id) {
            sessions.push(id);
        }
    }
    sessions
}

#[cfg(test)]
mod tests {
    use super::{pairs, Opened};

    fn sent(sessions: &[u64]) -> Vec<Opened> {
        let opened = |session: &u64| Opened {
            session: Some(*session),
            payload: Ok(vec![]),
        };
        sessions.iter().map(opened).collect()
    }

    #[test]
    fn sessions_are_paired_in_their_order() {
        let two_and_three = [sent(&[9, 4, 9, 4]), sent(&[3, 7, 3, 5])];
        let expected = [[Some(9), Some(3)], [Some(4), Some(7)], [None, Some(5)]];
        assert_eq!(pairs(&two_and_three), expected);
        let two_and_one = [sent(&[1, 2]), sent(&[8])];
        assert_eq!(pairs(&two_and_one), [[Some(1), Some(8)], [Some(2), None]]);
    }

    #[test]
    fn a_session_of_both_stays_together() {
        let both = [sent(&[9, 4, 6]), sent(&[3, 4, 5])];
        let expected = [[Some(9), Some(3)], [Some(4); 2], [Some(6), Some(5)]];
        assert_eq!(pairs(&both), expected);
    }
}
