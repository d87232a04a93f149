//! Lanes: where an entry stands.

use crate::compare::Recording;
use crate::opened::{pairs, Opened, Pair};

/// Whose entries a lane has.
#[derive(Clone, Copy, Debug, PartialEq, Eq, PartialOrd, Ord)]
pub enum Owner {
    /// There is no key that could tell.
    Anyone,
    /// A pair of client sessions, by the order in which they come.
    Sessions { place: usize, pair: Pair },
    /// A client session behind the first [`MOST_PAIRS`].
    OtherSession,
    /// The key does not open them.
    Nobody,
}

/// More lanes are not read by anybody; a table has no more sessions either.
const MOST_PAIRS: usize = 64;

#[derive(Clone, Copy, Debug, PartialEq, Eq, PartialOrd, Ord)]
pub struct Lane {
    pub owner: Owner,
    /// 0, 1, or 2 for unknown.
    pub direction: u8,
}

impl Lane {
    /// Whose entries it has of the first recording and of the second.
    pub fn owners(&self) -> [String; 2] {
        let both = |name: &str| [name, name].map(String::from);
        match self.owner {
            Owner::Anyone => both("all sessions"),
            Owner::Sessions { pair, .. } => pair.map(|id| match id {
                Some(id) => format!("{id:016x}"),
                None => "none".to_string(),
            }),
            Owner::OtherSession => both("other sessions"),
            Owner::Nobody => both("not opened"),
        }
    }

    pub fn direction(&self) -> &'static str {
        match self.direction {
            0 => "client → box",
            1 => "box → client",
            _ => "direction unknown",
        }
    }
}

/// Where an entry stands, and why it was refused, if it was.
#[derive(Clone, Copy, Debug, PartialEq, Eq)]
pub struct Place {
    /// Which lane.
    pub lane: usize,
    /// A refusal's number.
    pub refusal: Option<u64>,
}

pub struct Lanes {
    /// From above.
    pub lanes: Vec<Lane>,
    /// The places of both recordings' entries.
    pub places: [Vec<Place>; 2],
    /// Whether a key told the sessions.
    pub is_opened: bool,
}

impl Lanes {
    pub fn new(recordings: &[Recording; 2], opened: Option<&[Vec<Opened>; 2]>) -> Self {
        let pairs = opened.map(pairs).unwrap_or_default();
        let said = |side: usize, index: usize| opened.map(|both| &both[side][index]);
        let lane_of = |side: usize, index: usize| Lane {
            owner: owner(&pairs, side, said(side, index)),
            direction: recordings[side].entries[index].direction,
        };
        let indexes = |side: usize| 0..recordings[side].entries.len();
        let all = [0, 1].map(|side| indexes(side).map(move |index| (side, index)));
        let mut lanes: Vec<Lane> = all
            .into_iter()
            .flatten()
            .map(|(side, index)| lane_of(side, index))
            .collect();
        lanes.sort();
        lanes.dedup();
        let places = [0, 1].map(|side| {
            let place = |index| Place {
                lane: lanes.binary_search(&lane_of(side, index)).unwrap_or(0),
                refusal: said(side, index).and_then(refusal),
            };
            indexes(side).map(place).collect()
        });
        Self {
            lanes,
            places,
            is_opened: opened.is_some(),
        }
    }

    /// Whether there are lanes of two sessions.
    pub fn has_pairs(&self) -> bool {
        let is_pair = |lane: &Lane| match lane.owner {
            Owner::Sessions { pair, .. } => !pair.contains(&None) && pair[0] != pair[1],
            _ => false,
        };
        self.lanes.iter().any(is_pair)
    }
}

fn owner(pairs: &[Pair], side: usize, said: Option<&Opened>) -> Owner {
    let Some(opened) = said else {
        return Owner::Anyone;
    };
    if opened.session.is_none() {
        return Owner::Nobody;
    }
    match pairs.iter().position(|pair| pair[side] == opened.session) {
        Some(place @ ..MOST_PAIRS) => Owner::Sessions {
            place,
            pair: pairs[place],
        },
        _ => Owner::OtherSession,
    }
}

fn refusal(said: &Opened) -> Option<u64> {
    let refusal = said.payload.as_ref().err()?;
    Some(refusal.number())
}

#[cfg(test)]
mod tests {
    use relay::recording::Entry;
    use relay::Refusal;

    use super::{Lane, Lanes, Opened, Owner, Place, Recording};
    use crate::compare::Bodies;

    fn recording(directions: &[u8]) -> Recording<'static> {
        let entry = |direction: &u8| Entry {
            direction: *direction,
            clock: 1,
            body: b"",
        };
        Recording {
            name: String::new(),
            entries: directions.iter().map(entry).collect(),
            bodies: Bodies::Sealed,
        }
    }

    fn opened(session: Option<u64>, refusal: Option<Refusal>) -> Opened {
        let payload = refusal.map_or(Ok(vec![]), Err);
        Opened { session, payload }
    }

    fn lane(owner: Owner, direction: u8) -> Lane {
        Lane { owner, direction }
    }

    #[test]
    fn without_a_key_a_lane_is_a_direction() {
        let lanes = Lanes::new(&[recording(&[1, 0]), recording(&[2, 1])], None);
        assert_eq!(
            lanes.lanes,
            [0, 1, 2].map(|direction| lane(Owner::Anyone, direction))
        );
        let lane_of = |places: &[Place]| places.iter().map(|place| place.lane).collect::<Vec<_>>();
        assert_eq!(lane_of(&lanes.places[0]), [1, 0]);
        assert_eq!(lane_of(&lanes.places[1]), [2, 1]);
    }

    #[test]
    fn sessions_come_in_their_order_and_nobodys_last() {
        let said = [
            vec![
                opened(Some(9), None),
                opened(None, Some(Refusal::NotAuthentic)),
            ],
            vec![
                opened(Some(4), None),
                opened(Some(9), Some(Refusal::Replay)),
            ],
        ];
        let lanes = Lanes::new(&[recording(&[0, 0]), recording(&[0, 1])], Some(&said));
        let sessions = |place, pair| Owner::Sessions { place, pair };
        let expected = [
            (sessions(0, [Some(9); 2]), 0),
            (sessions(0, [Some(9); 2]), 1),
            (sessions(1, [None, Some(4)]), 0),
            (Owner::Nobody, 0),
        ];
        assert_eq!(
            lanes.lanes,
            expected.map(|(owner, direction)| lane(owner, direction))
        );
        let refusals = lanes.places.map(|places| places[1].refusal);
        assert_eq!(refusals, [Some(4), Some(8)]);
    }

    #[test]
    fn paired_sessions_share_lanes_each_on_its_side() {
        let said = [7, 8].map(|id| vec![opened(Some(id), None); 2]);
        let lanes = Lanes::new(&[recording(&[0, 1]), recording(&[0, 1])], Some(&said));
        assert_eq!(lanes.lanes.len(), 2);
        assert_eq!(lanes.places[0], lanes.places[1]);
        let owners = lanes.lanes[0].owners();
        assert_eq!(owners, ["0000000000000007", "0000000000000008"]);
    }

    #[test]
    fn more_sessions_than_a_table_has_share_a_lane() {
        let said = (0..70).map(|id| opened(Some(id), None)).collect();
        let recordings = [recording(&[0; 70]), recording(&[])];
        let lanes = Lanes::new(&recordings, Some(&[said, vec![]]));
        assert_eq!(lanes.lanes.len(), 65);
        assert_eq!(lanes.lanes[64].owner, Owner::OtherSession);
        assert_eq!(lanes.places[0][69].lane, 64);
    }
}
