//! The text of a comparison, read.

use std::str::FromStr;

use crate::json::Json;

/// How two entries of one index differ.
#[derive(Clone, Copy, Debug, PartialEq, Eq)]
pub enum Kind {
    /// Both lengths.
    Length(u64, u64),
    /// Direction or clock.
    Meta,
    /// The first byte that differs.
    Byte(u64),
    FirstOnly,
    SecondOnly,
}

/// An entry that differs.
#[derive(Clone, Copy, Debug, PartialEq, Eq)]
pub struct Difference {
    pub index: usize,
    pub kind: Kind,
}

/// What `recording::compare` says.
#[derive(Clone, Debug, PartialEq, Eq)]
pub struct Comparison {
    /// The counts of both recordings.
    pub entries: (u64, u64),
    /// By rising index.
    pub differences: Vec<Difference>,
}

impl Comparison {
    /// How the entries of an index differ, if they do.
    pub fn of(&self, index: usize) -> Option<Kind> {
        let find = |difference: &Difference| difference.index;
        let place = self.differences.binary_search_by_key(&index, find).ok()?;
        Some(self.differences[place].kind)
    }
}

impl FromStr for Comparison {
    type Err = String;

    fn from_str(text: &str) -> Result<Self, String> {
        let mut lines = text.lines();
        let front = lines.next().and_then(counts).ok_or("without counts")?;
        let differences = lines.map(|line| {
            let read = difference(line);
            read.ok_or_else(|| format!("{line:?} is not understood"))
        });
        Ok(Self {
            entries: front,
            differences: differences.collect::<Result<_, _>>()?,
        })
    }
}

/// `entries A B`.
fn counts(line: &str) -> Option<(u64, u64)> {
    match line.split(' ').collect::<Vec<_>>()[..] {
        ["entries", first, second] => Some((first.parse().ok()?, second.parse().ok()?)),
        _ => None,
    }
}

fn difference(line: &str) -> Option<Difference> {
    let words: Vec<&str> = line.split(' ').collect();
    let kind = match words[..] {
        ["length", _, first, second] => Kind::Length(first.parse().ok()?, second.parse().ok()?),
        ["meta", _] => Kind::Meta,
        ["differ", _, "byte", place] => Kind::Byte(place.parse().ok()?),
        ["first-only", _] => Kind::FirstOnly,
        ["second-only", _] => Kind::SecondOnly,
        _ => return None,
    };
    let index = words[1].parse().ok()?;
    Some(Difference { index, kind })
}

impl From<&Comparison> for Json {
    fn from(comparison: &Comparison) -> Self {
        let (first, second) = comparison.entries;
        let differences = comparison.differences.iter().map(Json::from);
        Self::Object(vec![
            ("entries", Self::List(vec![first.into(), second.into()])),
            ("differences", Self::List(differences.collect())),
        ])
    }
}

impl From<&Difference> for Json {
    fn from(difference: &Difference) -> Self {
        let (name, more) = match difference.kind {
            Kind::Length(first, second) => {
                let lengths = vec![("first", first.into()), ("second", second.into())];
                ("length", lengths)
            }
            Kind::Meta => ("meta", vec![]),
            Kind::Byte(place) => ("differ", vec![("byte", place.into())]),
            Kind::FirstOnly => ("first-only", vec![]),
            Kind::SecondOnly => ("second-only", vec![]),
        };
        let front = [("kind", name.into()), ("index", difference.index.into())];
        Self::Object(front.into_iter().chain(more).collect())
    }
}

#[cfg(test)]
mod tests {
    use super::{Comparison, Json, Kind};

    const TEXT: &str = "entries 2 5\nlength 0 3 4\nmeta 1\nsecond-only 2\ndiffer 30 byte 17\n";

    #[test]
    fn lines_are_read() {
        let comparison: Comparison = TEXT.parse().unwrap();
        assert_eq!(comparison.entries, (2, 5));
        let kinds = [0, 1, 2, 3, 30].map(|index| comparison.of(index));
        let (length, byte) = (Kind::Length(3, 4), Kind::Byte(17));
        assert_eq!(
            kinds,
            [
                Some(length),
                Some(Kind::Meta),
                Some(Kind::SecondOnly),
                None,
                Some(byte)
            ]
        );
        let other: Comparison = "entries 1 0\nfirst-only 0\n".parse().unwrap();
        assert_eq!(other.of(0), Some(Kind::FirstOnly));
    }

    #[test]
    fn other_text_is_not_understood() {
        for text in [
            "",
            "entries 1\n",
            "entries 1 x\n",
            "entries 1 1\nmeta\n",
            "entries 1 1\nnew 0\n",
        ] {
            assert!(text.parse::<Comparison>().is_err(), "{text:?}");
        }
    }

    #[test]
    fn json_has_what_the_text_has() {
        let comparison: Comparison = TEXT.parse().unwrap();
        assert_eq!(
            Json::from(&comparison).to_string(),
            "{\"entries\":[2,5],\"differences\":[\
             {\"kind\":\"length\",\"index\":0,\"first\":3,\"second\":4},\
             {\"kind\":\"meta\",\"index\":1},{\"kind\":\"second-only\",\"index\":2},\
             {\"kind\":\"differ\",\"index\":30,\"byte\":17}]}"
        );
    }
}
