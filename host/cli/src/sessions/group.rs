//! Sessions that the caller names: those of an idle movement and those of a loaded one.

use std::str::FromStr;

use relay::{Session, Table};

use crate::failure::{misuse, Outcome};
use crate::status::Snapshot;

/// The digits of an ID.
const DIGITS: usize = 16;

/// Session IDs as they are given, `ID,ID,...`.
pub struct Ids(pub Vec<u64>);

impl FromStr for Ids {
    type Err = String;

    fn from_str(text: &str) -> Result<Self, String> {
        let mut ids: Vec<u64> = text.split(',').map(id).collect::<Result<_, _>>()?;
        ids.sort_unstable();
        ids.dedup();
        Ok(Self(ids))
    }
}

fn id(text: &str) -> Result<u64, String> {
    let is_digits = text.len() == DIGITS && text.bytes().all(|byte| byte.is_ascii_hexdigit());
    let number = u64::from_str_radix(text, 16).ok().filter(|_| is_digits);
    number.ok_or_else(|| format!("an ID has {DIGITS} hexadecimal digits, not {text:?}"))
}

/// The groups that the caller asks for, by name. Without any, sessions are not grouped.
pub struct Groups(Vec<(&'static str, Vec<u64>)>);

/// The group of the sessions that are not named.
pub const OTHER: &str = "other";

impl Groups {
    pub fn new(idle: Option<Vec<u64>>, loaded: Option<Vec<u64>>) -> Outcome<Self> {
        if let (Some(idle), Some(loaded)) = (&idle, &loaded) {
            if let Some(both) = idle.iter().find(|id| loaded.contains(id)) {
                return Err(misuse(format!(
                    "{both:016x} is named as idle and as loaded"
                )));
            }
        }
        let named = [("idle", idle), ("loaded", loaded)];
        let named = named
            .into_iter()
            .filter_map(|(name, ids)| Some((name, ids?)));
        Ok(Self(named.collect()))
    }

    /// The group of a session, where there are groups.
    pub fn of(&self, id: u64) -> Option<&'static str> {
        if self.0.is_empty() {
            return None;
        }
        let named = self.0.iter().find(|(_, ids)| ids.contains(&id));
        Some(named.map_or(OTHER, |(name, _)| name))
    }

    /// The groups' names, that of the sessions without one at the end.
    pub fn names(&self) -> impl Iterator<Item = &'static str> + '_ {
        let other = (!self.0.is_empty()).then_some(OTHER);
        self.0.iter().map(|(name, _)| *name).chain(other)
    }

    /// Those of these sessions that are of a group.
    pub fn members<'a>(
        &'a self,
        name: &'static str,
        sessions: &'a [Session],
    ) -> impl Iterator<Item = &'a Session> + Clone {
        let is_member = move |session: &&Session| self.of(session.id) == Some(name);
        sessions.iter().filter(is_member)
    }

    /// The named sessions that no service of the box has alive, with their groups.
    pub fn missing(&self, snapshot: &Snapshot) -> Vec<(&'static str, u64)> {
        let tables = snapshot
            .services
            .iter()
            .filter_map(|service| service.table.as_ref());
        let alive: Vec<u64> = tables
            .flat_map(|table| table.sessions(snapshot.clock))
            .map(|session| session.id)
            .collect();
        let named = self.0.iter();
        let named = named.flat_map(|(name, ids)| ids.iter().map(move |id| (*name, *id)));
        named.filter(|(_, id)| !alive.contains(id)).collect()
    }
}

/// The sessions of a table that are alive, by ID.
pub fn sorted(table: &Table, clock: u64) -> Vec<Session> {
    let mut sessions: Vec<Session> = table.sessions(clock).collect();
    sessions.sort_by_key(|session| session.id);
    sessions
}

/// What sessions have accepted together, and the repeats of them that were refused.
pub fn sums<'a>(sessions: impl Iterator<Item = &'a Session>) -> (u64, u64) {
    sessions.fold((0, 0), |(accepted, repeats), session| {
        (
            session.accepted.saturating_add(accepted),
            session.repeats.saturating_add(repeats),
        )
    })
}

#[cfg(test)]
mod tests {
    use super::{Groups, Ids};

    #[test]
    fn ids_are_16_digits_each() {
        let Ids(ids) = "00000000000000ff,000000000000000A,00000000000000ff"
            .parse()
            .unwrap();
        assert_eq!(ids, [10, 255]);
        for text in [
            "",
            "ff",
            "00000000000000fg",
            "+0000000000000ff",
            "00000000000000ff,",
        ] {
            assert!(text.parse::<Ids>().is_err(), "{text:?}");
        }
    }

    #[test]
    fn a_session_has_one_group() {
        let groups = Groups::new(Some(vec![1]), Some(vec![2])).unwrap();
        assert_eq!(
            [1, 2, 3].map(|id| groups.of(id)),
            [Some("idle"), Some("loaded"), Some("other")]
        );
        let names: Vec<&str> = groups.names().collect();
        assert_eq!(names, ["idle", "loaded", "other"]);
        assert!(Groups::new(Some(vec![1, 2]), Some(vec![2])).is_err());
        let none = Groups::new(None, None).unwrap();
        assert_eq!((none.of(1), none.names().count()), (None, 0));
    }
}
