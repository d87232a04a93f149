//! Our speed on datagrams of the 2017 edition, beside the method of 2022 with the same
//! key length. It is said and not demanded: another machine or a busy one would give
//! another answer.

use crate::contest::Column;
use crate::kinds::{Call, Kind, Method, AES_METHODS, SIP004_METHODS};
use crate::numbers::{grouped, rounded};
use crate::results::Line;

const TITLE: &str = "Datagrams of 2017: our speed as a part of that with 2022's method of the same key length (medians)";

/// At this size so much is asked for.
const SIZE: usize = 1_400;
const ASKED: f64 = 0.8;

/// A call on datagrams of one size, in both editions.
struct Pair {
    older: Method,
    newer: Method,
    call: Call,
    size: usize,
    ratio: f64,
}

impl Pair {
    fn name(&self) -> String {
        let (older, newer) = (self.older.number, self.newer.number);
        format!("methods {older} and {newer}, {}", self.call.name())
    }
}

/// A row for each pair of methods and call with a cell for each size, and whether what is
/// asked for is met.
pub fn lines(lines: &[Line]) -> Vec<String> {
    let pairs = pairs(lines);
    let mut text = vec![TITLE.to_string()];
    for pairs in pairs.chunk_by(|a, b| a.name() == b.name()) {
        let cells = pairs.iter().map(|pair| {
            let (size, ratio) = (grouped(pair.size), rounded(pair.ratio));
            format!("{size:>9}  {ratio:>5}")
        });
        text.push(pairs[0].name() + &cells.collect::<String>());
    }
    text.push(statement(&pairs));
    text
}

fn statement(pairs: &[Pair]) -> String {
    let asked = format!("Asked for with {} bytes: {ASKED}.", grouped(SIZE));
    let of_size = pairs.iter().filter(|pair| pair.size == SIZE);
    let lowest = of_size.min_by(|a, b| a.ratio.total_cmp(&b.ratio));
    let Some(lowest) = lowest else {
        return format!("{asked} Ours was not measured.");
    };
    format!(
        "{asked} Ours at the lowest ({}): {}, {}.",
        lowest.name(),
        rounded(lowest.ratio),
        if lowest.ratio >= ASKED {
            "met"
        } else {
            "not met"
        }
    )
}

/// Method 12 has none beside it.
fn pairs(lines: &[Line]) -> Vec<Pair> {
    let mut pairs = Vec::new();
    for newer in AES_METHODS {
        let same = |older: &Method| older.key_length == newer.key_length;
        let Some(older) = SIP004_METHODS.into_iter().find(same) else {
            continue;
        };
        for call in [Call::Seal, Call::Open] {
            let of = |kind| lines.iter().filter(move |line: &&Line| line.kind == kind);
            for line in of(Kind::Sip004(older, call)) {
                let mut newer_lines = of(Kind::Datagram(newer, call));
                let beside = newer_lines.find(|newer| newer.size == line.size);
                pairs.extend(beside.and_then(|beside| {
                    let [ours, theirs] = [line, beside].map(|line| line.speed(Column::Ours));
                    Some(Pair {
                        older,
                        newer,
                        call,
                        size: line.size,
                        ratio: ours?.median / theirs?.median,
                    })
                }));
            }
        }
    }
    pairs
}

#[cfg(test)]
mod tests {
    use super::lines;
    use crate::contest::Column;
    use crate::kinds::{Call, Kind, METHODS, SIP004_METHODS};
    use crate::results::Line;
    use crate::samples::times_of;

    /// A line of ours with so many nanoseconds.
    fn line(kind: Kind, size: usize, time: f64) -> Line {
        Line::new(kind, size, &times_of([(Column::Ours, vec![time])]))
    }

    fn said(time: f64) -> Vec<String> {
        let (older, newer) = (SIP004_METHODS[0], METHODS[0]);
        lines(&[
            line(Kind::Datagram(newer, Call::Seal), 64, 10.0),
            line(Kind::Datagram(newer, Call::Seal), 1_400, 90.0),
            line(Kind::Sip004(older, Call::Seal), 64, 20.0),
            line(Kind::Sip004(older, Call::Seal), 1_400, time),
            line(Kind::Sip004(SIP004_METHODS[1], Call::Seal), 1_400, 900.0),
        ])
    }

    #[test]
    fn each_size_has_its_ratio() {
        let text = said(100.0);
        let words: Vec<&str> = text[1].split_whitespace().collect();
        let name = ["methods", "11", "and", "1,", "seal"];
        assert_eq!(words[..5], name);
        assert_eq!(words[5..], ["64", "0.500", "1,400", "0.900"]);
        assert_eq!(text.len(), 3);
    }

    #[test]
    fn what_is_asked_for_is_told() {
        let last = |text: Vec<String>| text.last().expect("a statement").clone();
        let met = last(said(100.0));
        assert!(
            met.ends_with("(methods 11 and 1, seal): 0.900, met."),
            "{met}"
        );
        assert!(last(said(113.0)).ends_with("0.796, not met."));
        assert!(last(lines(&[])).ends_with("Ours was not measured."));
    }
}
