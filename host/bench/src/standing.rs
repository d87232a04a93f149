//! Where ours stands: for each kind and size the best other without processor
//! instructions, and the ratio to it. It is said and not demanded.

use crate::contest::Column;
use crate::kinds::Kind;
use crate::numbers::{grouped, rounded};
use crate::results::{Line, Summary};

const TITLE: &str = "Best other without instructions, and our ratio to it (median)";

/// A line under its best other.
struct Standing<'a> {
    line: &'a Line,
    best: Column,
    ratio: Summary,
}

/// What three rounds out of four say.
#[derive(PartialEq, Eq)]
enum Place {
    Ahead,
    /// 1 lies between the quartiles of the ratio.
    Level,
    Behind,
}

impl<'a> Standing<'a> {
    /// `None` where ours or the others were not measured.
    fn of(line: &'a Line) -> Option<Self> {
        let best = line.best(Column::WITHOUT)?;
        let ratio = line.ratio(best)?;
        Some(Self { line, best, ratio })
    }

    fn size_and_ratio(&self) -> String {
        let (size, ratio) = (grouped(self.line.size), rounded(self.ratio.median));
        format!("{size:>7}  {:10}{ratio:>6}", self.best.library_name())
    }

    fn size(&self) -> String {
        format!("{:>8}", grouped(self.line.size))
    }

    fn place(&self) -> Place {
        if self.ratio.lower > 1.0 {
            Place::Ahead
        } else if self.ratio.upper < 1.0 {
            Place::Behind
        } else {
            Place::Level
        }
    }
}

fn name(kind: Kind) -> String {
    format!("{}: {}", kind.section().title(), kind.name())
}

/// A row for each kind with a cell for each size, and in how many ours is ahead.
pub fn lines(lines: &[Line]) -> Vec<String> {
    let standings: Vec<Standing> = lines.iter().filter_map(Standing::of).collect();
    let mut text = vec![TITLE.to_string()];
    text.extend(by_kind(&standings, Standing::size_and_ratio));
    text.push(String::new());
    text.extend(statement(&standings));
    text
}

/// In how many rows ours is ahead, and the sizes of each kind at which it is not.
fn statement(standings: &[Standing]) -> Vec<String> {
    let at = |place: Place| -> Vec<&Standing> {
        let standings = standings.iter();
        standings
            .filter(|standing| standing.place() == place)
            .collect()
    };
    let [ahead, level, behind] = [Place::Ahead, Place::Level, Place::Behind].map(at);
    let mut text = vec![format!(
        "Ours beside the best other without instructions, by the quartiles of the ratio: \
         ahead in {} of {} rows, level in {}, behind in {}.",
        ahead.len(),
        standings.len(),
        level.len(),
        behind.len()
    )];
    for (title, rows) in [("Level:", level), ("Behind:", behind)] {
        if !rows.is_empty() {
            text.push(title.to_string());
            text.extend(by_kind(rows, Standing::size));
        }
    }
    text
}

/// A row for each kind, with a cell for each of its standings.
fn by_kind<'a>(
    standings: impl IntoIterator<Item = &'a Standing<'a>>,
    cell: impl Fn(&Standing<'a>) -> String,
) -> Vec<String> {
    let standings: Vec<&Standing> = standings.into_iter().collect();
    let names = standings.iter().map(|standing| name(standing.line.kind));
    let width = names.map(|name| name.len()).max().unwrap_or(0);
    let kinds = standings.chunk_by(|a, b| a.line.kind == b.line.kind);
    kinds
        .map(|standings| {
            let cells: String = standings.iter().map(|standing| cell(standing)).collect();
            format!("{:width$}{cells}", name(standings[0].line.kind))
        })
        .collect()
}

#[cfg(test)]
mod tests {
    use super::lines;
    use crate::contest::Column;
    use crate::kinds::{Kind, Section};
    use crate::results::Line;
    use crate::samples::{self, times_of};

    /// Ours needs 10 microseconds.
    fn line(size: usize, nettle: f64, bearssl: f64) -> Line {
        let times = times_of([
            (Column::Ours, vec![1e4]),
            (Column::NettleWithout, vec![nettle]),
            (Column::BearSslWithout, vec![bearssl]),
            (Column::OpenSslWith, vec![1.0]),
        ]);
        Line::new(Kind::Ghash, size, &times)
    }

    #[test]
    fn a_kind_has_its_best_other_for_each_size() {
        let text = lines(&[line(64, 3e4, 2e4), line(1_392, 15e3, 4e4)]);
        let words: Vec<&str> = text[1].split_whitespace().collect();
        let expected = ["AES", "and", "GHASH:", "GHASH", "64", "BearSSL", "2.00"];
        assert_eq!(words[..7], expected);
        assert_eq!(words[7..], ["1,392", "nettle", "1.50"]);
        let last = text.last().expect("a statement");
        assert!(
            last.contains("ahead in 2 of 2 rows, level in 0, behind in 0."),
            "{last}"
        );
    }

    #[test]
    fn rows_in_which_ours_is_not_ahead_are_named() {
        let level = times_of([
            (Column::Ours, vec![1e4; 5]),
            (Column::NettleWithout, vec![5e3, 9e3, 11e3, 12e3, 13e3]),
        ]);
        let level = Line::new(Kind::Ghash, 1_400, &level);
        let text = lines(&[line(64, 9e3, 2e4), level, line(1_392, 15e3, 4e4)]);
        let said = "ahead in 1 of 3 rows, level in 1, behind in 1.";
        assert!(text[text.len() - 5].contains(said), "{text:?}");
        let words: Vec<&str> = text[text.len() - 4..]
            .iter()
            .filter_map(|line| line.split_whitespace().last())
            .collect();
        assert_eq!(words, ["Level:", "1,400", "Behind:", "64"]);
    }

    #[test]
    fn plain_rust_is_an_other() {
        let text = lines(&samples::lines());
        let subkeys = text
            .iter()
            .find(|line| line.starts_with(Section::Subkeys.title()));
        let subkeys = subkeys.expect("a row of subkeys");
        assert!(subkeys.ends_with("64  plain Rust  1.33"), "{subkeys}");
    }

    #[test]
    fn nothing_measured_is_nothing_ahead() {
        assert!(lines(&[]).concat().contains("ahead in 0 of 0 rows"));
    }
}
