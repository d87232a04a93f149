//! The table as text. A column is as wide as what stands in it.

use crate::about::About;
use crate::asked;
use crate::contest::Column;
use crate::editions;
use crate::kinds::{Others, Section};
use crate::numbers::{grouped, rounded};
use crate::results::{Line, Summary};
use crate::shape;
use crate::spread;
use crate::standing;
use crate::worst;

/// Blanks between two columns, and between those of a group of others.
const GAP: usize = 2;
const NARROW_GAP: usize = 1;

/// Others that ours is measured against, and the name of the ratio to their best.
struct Group {
    title: &'static str,
    columns: &'static [Column],
    ratio: &'static str,
    /// Whether the best is named beside its ratio.
    named: bool,
    /// Whether the ratio has its quartiles.
    quartiles: bool,
}

const SOFTWARE: Group = Group {
    title: "no instructions",
    columns: &[
        Column::OpenSslWithout,
        Column::NettleWithout,
        Column::BearSslWithout,
        Column::GcryptWithout,
    ],
    ratio: "ours / best without",
    named: true,
    quartiles: true,
};

const INSTRUCTIONS: Group = Group {
    title: "instructions",
    columns: &[
        Column::OpenSslWith,
        Column::NettleWith,
        Column::BearSslWith,
        Column::MbedTlsWith,
    ],
    ratio: "ours / with",
    named: true,
    quartiles: false,
};

const CHACHA_SOFTWARE: Group = Group {
    columns: &[
        Column::OpenSslWithout,
        Column::NettleWithout,
        Column::BearSslWithout,
    ],
    ..SOFTWARE
};

/// libsodium chooses for itself, and BearSSL's ChaCha20 takes what every processor has.
const CHACHA_INSTRUCTIONS: Group = Group {
    columns: &[Column::OpenSslWith, Column::NettleWith, Column::SodiumWith],
    ..INSTRUCTIONS
};

const PLAIN: Group = Group {
    title: "plain Rust",
    columns: &[Column::Plain],
    ratio: "ours / theirs",
    named: false,
    quartiles: true,
};

impl Group {
    /// The names of its columns.
    fn heads(&self) -> Vec<&'static str> {
        let heads = self.columns.iter().map(|column| match column {
            Column::Plain => "MB/s",
            column => column.library_name(),
        });
        heads.collect()
    }

    fn ratio_heads(&self) -> Vec<&'static str> {
        if self.named {
            vec!["best", "ratio"]
        } else {
            vec!["ratio"]
        }
    }

    /// The speeds of a line.
    fn speeds(&self, line: &Line) -> Vec<String> {
        let speeds = self.columns.iter().map(|&column| line.speed(column));
        speeds
            .map(|speed| or_dash(speed, |speed| rounded(speed.median)))
            .collect()
    }

    /// The ratio of a line to the best.
    fn ratio(&self, line: &Line) -> Vec<String> {
        let best = line.best(self.columns.iter().copied());
        let ratio = best.and_then(|best| line.ratio(best));
        let ratio = if self.quartiles {
            with_quartiles(ratio)
        } else {
            or_dash(ratio, |ratio| rounded(ratio.median))
        };
        if self.named {
            let name = or_dash(best, |best| best.library_name().to_string());
            vec![name, ratio]
        } else {
            vec![ratio]
        }
    }
}

/// Columns under one title.
pub struct Span {
    title: &'static str,
    heads: Vec<&'static str>,
    /// Blanks between its columns.
    gap: usize,
}

impl Span {
    pub fn new(title: &'static str, heads: Vec<&'static str>) -> Self {
        let gap = GAP;
        Self { title, heads, gap }
    }

    fn narrow(title: &'static str, heads: Vec<&'static str>) -> Self {
        let gap = NARROW_GAP;
        Self { title, heads, gap }
    }

    /// Of all its columns.
    fn width(&self, widths: &[usize]) -> usize {
        widths.iter().sum::<usize>() + self.gap * (widths.len() - 1)
    }
}

/// All of it: what it was made on, the sections, where ours stands, how far the samples
/// lie apart, the two editions beside each other, long counter mode beside its shape, what
/// is asked of ChaCha20, and the worst case.
pub fn text(about: &About, lines: &[Line]) -> String {
    let mut text = about.lines();
    for section in Section::ALL {
        text.push(String::new());
        text.extend(section_lines(section, lines));
    }
    text.push(String::new());
    text.extend(standing::lines(lines));
    text.push(String::new());
    text.extend(spread::lines(lines));
    text.push(String::new());
    text.extend(editions::lines(lines));
    text.push(String::new());
    text.push(shape::statement(lines));
    text.push(asked::statement(lines));
    text.push(worst::statement(lines));
    text.push(String::new());
    text.join("\n")
}

/// Titles, names of the columns, and a row for each of the section's lines, as wide as those of
/// all sections with the same others.
fn section_lines(section: Section, lines: &[Line]) -> Vec<String> {
    let alike = |other: &Section| other.others() == section.others();
    let alike = Section::ALL.into_iter().filter(alike);
    let all: Vec<_> = alike
        .flat_map(|other| headed(&spans(other), &rows(other, lines)))
        .collect();
    let (spans, rows) = (spans(section), rows(section, lines));
    placed(&spans, &headed(&spans, &rows), &widths(&spans, &all))
}

/// Titles, names of the columns, and rows of cells.
pub fn laid_out(spans: &[Span], rows: &[Vec<String>]) -> Vec<String> {
    let rows = headed(spans, rows);
    placed(spans, &rows, &widths(spans, &rows))
}

fn placed(spans: &[Span], rows: &[Vec<String>], widths: &[usize]) -> Vec<String> {
    let rows = rows.iter().map(|row| joined(row, spans, widths));
    [titles(spans, widths)].into_iter().chain(rows).collect()
}

/// The names of the columns, and the rows below them.
fn headed(spans: &[Span], rows: &[Vec<String>]) -> Vec<Vec<String>> {
    let heads = spans.iter().flat_map(|span| &span.heads);
    let heads = heads.map(|head| head.to_string()).collect();
    [heads].into_iter().chain(rows.iter().cloned()).collect()
}

/// The cells of the section's lines.
fn rows(section: Section, lines: &[Line]) -> Vec<Vec<String>> {
    of(section, lines)
        .map(|line| cells(section, line))
        .collect()
}

fn of(section: Section, lines: &[Line]) -> impl Iterator<Item = &Line> {
    lines
        .iter()
        .filter(move |line| line.kind.section() == section)
}

fn groups(section: Section) -> &'static [Group] {
    match section.others() {
        Others::Aes => &[SOFTWARE, INSTRUCTIONS],
        Others::ChaCha20 => &[CHACHA_SOFTWARE, CHACHA_INSTRUCTIONS],
        Others::Plain => &[PLAIN],
    }
}

/// Ours and the others of a section.
#[cfg(test)]
pub fn columns(section: Section) -> impl Iterator<Item = Column> {
    let others = groups(section).iter().flat_map(|group| group.columns);
    [Column::Ours].into_iter().chain(others.copied())
}

fn spans(section: Section) -> Vec<Span> {
    let rate = if section.has_datagrams() {
        "datagrams/s"
    } else {
        "calls/s"
    };
    let mut spans = vec![
        Span::new(section.title(), vec!["", "bytes"]),
        Span::new("ours", vec!["MB/s", rate, "µs"]),
    ];
    let groups = groups(section).iter();
    spans.extend(
        groups
            .clone()
            .map(|group| Span::narrow(group.title, group.heads())),
    );
    spans.extend(groups.map(|group| Span::new(group.ratio, group.ratio_heads())));
    spans
}

/// A line's cells, in the order of the section's heads.
fn cells(section: Section, line: &Line) -> Vec<String> {
    let rate = line.rate();
    let mut cells = vec![
        line.kind.name(),
        grouped(line.size),
        with_quartiles(line.speed(Column::Ours)),
        or_dash(rate, |rate| grouped(rate as usize)),
        or_dash(rate, |rate| rounded(1e6 / rate)),
    ];
    let groups = groups(section).iter();
    cells.extend(groups.clone().flat_map(|group| group.speeds(line)));
    cells.extend(groups.flat_map(|group| group.ratio(line)));
    cells
}

/// As wide as the widest cell, and together wide enough for a title.
fn widths(spans: &[Span], rows: &[Vec<String>]) -> Vec<usize> {
    let mut widths = vec![0; spans.iter().map(|span| span.heads.len()).sum()];
    for row in rows {
        for (width_now, cell) in widths.iter_mut().zip(row) {
            *width_now = width(cell).max(*width_now);
        }
    }
    let mut first = 0;
    for span in spans {
        let own = first..first + span.heads.len();
        // With a line and a blank on either side.
        let wanted = width(span.title) + 4;
        widths[first] += wanted.saturating_sub(span.width(&widths[own.clone()]));
        first = own.end;
    }
    widths
}

fn width(text: &str) -> usize {
    text.chars().count()
}

/// The first cell begins its column, the others end theirs.
fn joined(cells: &[String], spans: &[Span], widths: &[usize]) -> String {
    let mut gaps = spans.iter().flat_map(|span| {
        let inner = span.heads.iter().skip(1).map(|_| span.gap);
        std::iter::once(GAP).chain(inner)
    });
    gaps.next();
    let mut text = format!("{:width$}", cells[0], width = widths[0]);
    for ((cell, width), gap) in cells.iter().zip(widths).skip(1).zip(gaps) {
        text += &format!("{:gap$}{cell:>width$}", "");
    }
    text
}

/// Each title over the columns that it holds for. The first is the section's.
fn titles(spans: &[Span], widths: &[usize]) -> String {
    let mut text = String::new();
    let mut rest = widths;
    for span in spans {
        let (widths, behind) = rest.split_at(span.heads.len());
        let width = span.width(widths);
        rest = behind;
        if text.is_empty() {
            text = format!("{:width$}", span.title);
        } else {
            let title = format!(" {} ", span.title);
            text += &format!("{:GAP$}{title:─^width$}", "");
        }
    }
    text
}

/// Median and quartiles.
pub fn with_quartiles(summary: Option<Summary>) -> String {
    or_dash(summary, |summary| {
        let [median, lower, upper] = [summary.median, summary.lower, summary.upper].map(rounded);
        format!("{median} ({lower}–{upper})")
    })
}

pub fn or_dash<T>(value: Option<T>, write: impl Fn(T) -> String) -> String {
    value.map_or_else(|| "-".to_string(), write)
}

#[cfg(test)]
mod tests {
    use super::{cells, section_lines, text, width};
    use crate::contest::Column;
    use crate::kinds::{Kind, Section};
    use crate::results::Line;
    use crate::samples;

    #[test]
    fn a_terminal_of_176_columns_holds_it() {
        for line in text(&samples::about(), &samples::lines()).lines() {
            assert!(width(line) <= 176, "{line}");
        }
    }

    #[test]
    fn a_row_has_speeds_and_ratios() {
        let times = samples::times_of([
            (Column::Ours, vec![1e4]),
            (Column::OpenSslWithout, vec![4e4]),
            (Column::NettleWithout, vec![2e4]),
            (Column::BearSslWithout, vec![5e4]),
            (Column::OpenSslWith, vec![1e3]),
        ]);
        let line = Line::new(Kind::Ghash, 1_000, &times);
        let ours = ["GHASH", "1,000", "100 (100–100)", "100,000", "10.0"];
        let theirs = ["25.0", "50.0", "20.0", "-", "1,000", "-", "-", "-"];
        let ratios = ["nettle", "2.00 (2.00–2.00)", "OpenSSL", "0.100"];
        let expected = [&ours[..], &theirs, &ratios].concat();
        assert_eq!(cells(Section::Primitives, &line), expected);
    }

    #[test]
    fn heads_name_whom_ours_is_measured_against() {
        let lines = section_lines(Section::Datagrams, &[]);
        let (groups, columns) = (&lines[0], &lines[1]);
        assert!(groups.contains(" no instructions ") && groups.contains("─ instructions "));
        assert!(columns.contains("datagrams/s"));
        for library in ["OpenSSL", "nettle", "BearSSL"] {
            assert_eq!(columns.matches(library).count(), 2, "{library}");
        }
        let columns = &section_lines(Section::ChaChaDatagrams, &[])[1];
        for (library, count) in [("OpenSSL", 2), ("nettle", 2), ("BearSSL", 1), ("sodium", 1)] {
            assert_eq!(columns.matches(library).count(), count, "{library}");
        }
        for section in [Section::ReducedDatagrams, Section::Subkeys] {
            let lines = section_lines(section, &[]);
            let (groups, columns) = (&lines[0], &lines[1]);
            assert!(groups.contains("plain Rust") && !groups.contains("instructions"));
            assert!(!columns.contains("OpenSSL"));
        }
    }

    /// Also where numbers are longer than any that was seen.
    #[test]
    fn columns_are_as_wide_as_their_cells() {
        let times = samples::times_of(Column::ALL.map(|column| (column, vec![1e-3, 1e9, 3e3])));
        let mut lines = samples::lines();
        lines.push(Line::new(Kind::Ghash, 65_504, &times));
        for section in Section::ALL {
            let rows = section_lines(section, &lines);
            for row in &rows {
                assert_eq!(width(row), width(&rows[0]), "{row}");
            }
            for line in lines.iter().filter(|line| line.kind.section() == section) {
                let cells = cells(section, line);
                let alone = |row: &&String| {
                    cells[1..]
                        .iter()
                        .all(|cell| row.contains(&format!(" {cell}")))
                };
                assert!(rows.iter().any(|row| alone(&row)), "{cells:?}");
            }
        }
    }
}
