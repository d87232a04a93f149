//! The results as a picture: a panel for each method that other libraries have, sealing
//! and opening, with speed over the datagram's length, and one for the parts alone.
//!
//! Speeds with processor instructions are a hundred times the others, so
//! all axes are logarithmic. All panels of datagrams have the same, to be compared.

mod bars;
mod curves;
mod scale;
mod style;
mod svg;

use crate::about::About;
use crate::contest::Column;
use crate::kinds::{Call, Kind, Method, AES_METHODS, CHACHA20};
use crate::numbers::{grouped, rounded};
use crate::results::Line;
use crate::worst;
use scale::Domain;
use style::{ASKED, DARK, GREY};
use svg::{Font, Point, Svg};

const WIDTH: f64 = 1_360.0;
const HEIGHT: f64 = 1_583.0;
const MARGIN: f64 = 28.0;

const TITLE: &str = "Bhajnolith beside six other libraries: speed of Shadowsocks 2022 datagrams";

/// The methods of which there are panels.
const METHODS: [Method; 3] = [AES_METHODS[0], AES_METHODS[1], CHACHA20];

/// The legend's rows, and the widths of its places before the last. The first place is short.
const LEGEND: [[Option<Column>; 4]; 3] = [
    [
        Some(Column::Ours),
        Some(Column::OpenSslWithout),
        Some(Column::NettleWithout),
        Some(Column::BearSslWithout),
    ],
    [
        Some(Column::Plain),
        Some(Column::OpenSslWith),
        Some(Column::NettleWith),
        Some(Column::BearSslWith),
    ],
    [
        None,
        Some(Column::GcryptWithout),
        Some(Column::MbedTlsWith),
        Some(Column::SodiumWith),
    ],
];
const CELLS: [f64; 4] = [154.0, 314.0, 302.0, 314.0];

/// Where the panels' names stand, and where the panels begin.
const NAMES: f64 = 188.0;
const PANELS: f64 = 204.0;

/// The place of a panel, with its title and labels.
#[derive(Clone, Copy)]
struct Frame {
    left: f64,
    top: f64,
    width: f64,
    height: f64,
}

/// The whole picture, as an SVG file.
pub fn draw(about: &About, lines: &[Line]) -> String {
    let mut svg = Svg::new(WIDTH, HEIGHT);
    head(&mut svg, about);
    legend(&mut svg, 112.0);
    datagrams(&mut svg, lines);
    parts(&mut svg, lines);
    svg.finish(TITLE)
}

fn head(svg: &mut Svg, about: &About) {
    svg.text((MARGIN, 38.0), TITLE, Font::new(22, DARK).bold());
    let run = format!(
        "{}, {}, {}, {}, one thread. Median of {} interleaved rounds of {} batches, whiskers from quartile to quartile.",
        about.cpu,
        about.openssl_number(),
        about.nettle,
        about.sodium,
        about.rounds,
        about.batches
    );
    svg.text((MARGIN, 62.0), &run, Font::new(13, GREY));
    let scales = format!(
        "1 MB is {} bytes. All scales are logarithmic. Asked for are {}.",
        grouped(1_000_000),
        worst::asked()
    );
    svg.text((MARGIN, 82.0), &scales, Font::new(13, GREY));
}

/// A sample of each line, a place of the grid for each.
fn legend(svg: &mut Svg, top: f64) {
    let place = |row: usize, cell: usize| {
        let left = MARGIN + CELLS[..cell].iter().sum::<f64>();
        (left, top + 20.0 * row as f64)
    };
    for (row, columns) in LEGEND.iter().enumerate() {
        for (cell, &column) in columns.iter().enumerate() {
            let Some(column) = column else { continue };
            let ((left, y), style) = (place(row, cell), style::of(column));
            let (from, to) = ((left, y - 4.0), (left + 36.0, y - 4.0));
            svg.line(from, to, style.stroke());
            svg.marker(style.shape, (left + 18.0, y - 4.0), style.color);
            svg.text((left + 44.0, y), style.label, Font::new(13, DARK));
        }
    }
    let asked = format!("asked for: {} MB/s", rounded(worst::SPEED));
    let (left, y) = place(0, CELLS.len());
    svg.line((left, y - 4.0), (left + 36.0, y - 4.0), ASKED);
    svg.text((left + 44.0, y), &asked, Font::new(13, DARK));
}

/// A row for each method, sealing left and opening right.
fn datagrams(svg: &mut Svg, lines: &[Line]) {
    let note =
        "Whole datagrams. The libraries have plain Rust around them: headers, BLAKE3, sessions.";
    svg.text((MARGIN, NAMES), note, Font::new(14, DARK).bold());
    let of = |kind| lines.iter().filter(move |line| line.kind == kind);
    let kinds = METHODS.map(|method| [Call::Seal, Call::Open].map(|call| (method, call)));
    let shown = kinds.as_flattened().iter();
    let shown = shown.flat_map(|&(method, call)| of(Kind::Datagram(method, call)));
    let domain = Domain::of_speeds(shown, &[worst::SPEED]);
    for (row, calls) in kinds.iter().enumerate() {
        for (place, &(method, call)) in calls.iter().enumerate() {
            let frame = Frame {
                left: MARGIN + 476.0 * place as f64,
                top: PANELS + 455.0 * row as f64,
                width: 460.0,
                height: 443.0,
            };
            let (verb, cipher) = (style::verb(call), method.cipher_name());
            let title = format!("{verb}, method {} ({cipher})", method.number);
            let lines: Vec<&Line> = of(Kind::Datagram(method, call)).collect();
            curves::draw(svg, frame, &title, domain, &lines);
        }
    }
}

/// A panel with bars for what a datagram is made of.
fn parts(svg: &mut Svg, lines: &[Line]) {
    let frame = Frame {
        left: 2.0 * 476.0 + MARGIN + 16.0,
        top: PANELS,
        width: WIDTH - 2.0 * 476.0 - 2.0 * MARGIN - 16.0,
        height: HEIGHT - PANELS - MARGIN + 6.0,
    };
    let note = "Ciphers and hashes alone, MB/s";
    svg.text((frame.left, NAMES), note, Font::new(14, DARK).bold());
    let [aes_128, aes_256, chacha20] = METHODS.map(|method| Kind::Body(method, Call::Seal));
    let counter = |key_length| Kind::Counter { key_length };
    let kinds = [
        counter(16),
        counter(24),
        counter(32),
        Kind::Ghash,
        aes_128,
        aes_256,
        Kind::Stream { rounds: 20 },
        Kind::Poly1305,
        chacha20,
        Kind::Hash,
        Kind::Subkey,
    ];
    let longest = kinds.into_iter().filter_map(|kind| longest(lines, kind));
    bars::draw(svg, frame, &longest.collect::<Vec<_>>());
}

/// The row of a kind that has the most bytes.
fn longest(lines: &[Line], kind: Kind) -> Option<&Line> {
    let lines = lines.iter().filter(|line| line.kind == kind);
    lines.max_by_key(|line| line.size)
}

/// A thin line from quartile to quartile.
fn whisker(svg: &mut Svg, from: Point, to: Point) {
    svg.line(from, to, style::WHISKER);
}

#[cfg(test)]
mod tests {
    use super::{draw, HEIGHT, WIDTH};
    use crate::samples;

    fn drawn() -> String {
        draw(&samples::about(), &samples::lines())
    }

    /// The values of an attribute, as numbers.
    fn numbers<'a>(svg: &'a str, attribute: &str) -> Vec<f64> {
        let start = format!(" {attribute}=\"");
        let values = svg.split(&start).skip(1);
        let values = values.map(|rest: &'a str| rest.split('"').next().unwrap_or_default());
        values
            .filter(|value| !value.ends_with('%'))
            .map(|value| value.parse().expect("a number"))
            .collect()
    }

    #[test]
    fn every_element_is_closed() {
        let svg = drawn();
        let mut open = Vec::new();
        for tag in svg.split('<').skip(1) {
            let tag = tag.split('>').next().expect("a tag has an end");
            let name = tag.split_whitespace().next().expect("a tag has a name");
            if let Some(name) = name.strip_prefix('/') {
                assert_eq!(open.pop(), Some(name));
            } else if !tag.ends_with('/') {
                open.push(name);
            }
        }
        assert_eq!(open, [""; 0]);
    }

    #[test]
    fn names_of_the_run_are_escaped() {
        let svg = drawn();
        assert!(svg.contains("A &lt;processor&gt; &amp; its name"));
        assert!(!svg.contains("<processor>"));
    }

    #[test]
    fn all_is_on_the_white_ground() {
        let svg = drawn();
        assert!(svg.contains("fill=\"#ffffff\""));
        for attribute in ["x", "x1", "x2", "cx"] {
            let places = numbers(&svg, attribute);
            assert!(
                places.iter().all(|x| (0.0..=WIDTH).contains(x)),
                "{attribute}"
            );
        }
        for attribute in ["y", "y1", "y2", "cy"] {
            let places = numbers(&svg, attribute);
            assert!(
                places.iter().all(|y| (0.0..=HEIGHT).contains(y)),
                "{attribute}"
            );
        }
    }

    #[test]
    fn each_panel_has_a_line_for_each_column() {
        // Nine for AES, seven for ChaCha20.
        assert_eq!(drawn().matches("<polyline").count(), 4 * 9 + 2 * 7);
    }

    #[test]
    fn without_results_there_are_no_lines() {
        let svg = draw(&samples::about(), &[]);
        assert_eq!(svg.matches("<polyline").count(), 0);
    }
}
