//! A panel with speeds over the lengths of datagrams.

use super::scale::{apart, Domain, Scale};
use super::style::{self, ASKED, AXIS, DARK, FINE_GRID, GREY, GRID};
use super::svg::{Font, Point, Svg};
use super::{whisker, Frame};
use crate::contest::Column;
use crate::numbers::{grouped, rounded};
use crate::results::{Line, Summary};
use crate::worst;

/// Room in a frame beside the axes: for the numbers of speeds, the title, the last
/// points' speeds, and the lengths.
const LEFT: f64 = 56.0;
const TOP: f64 = 26.0;
const RIGHT: f64 = 48.0;
const BOTTOM: f64 = 44.0;

/// The height of a label at the end of a line.
const LABEL: f64 = 14.0;

/// Both axes.
struct Axes {
    left: f64,
    right: f64,
    top: f64,
    bottom: f64,
    lengths: Scale,
    speeds: Scale,
}

/// The lines have the same kind, and a length each.
pub fn draw(svg: &mut Svg, frame: Frame, title: &str, speeds: Domain, lines: &[&Line]) {
    let axes = Axes::new(frame, speeds, lines);
    svg.text((axes.left, frame.top + 14.0), title, Font::new(14, DARK));
    axes.draw_speeds(svg, speeds);
    axes.draw_lengths(svg, lines);
    let asked = axes.speeds.place(worst::SPEED);
    svg.line((axes.left, asked), (axes.right, asked), ASKED);
    // Ours last, so that it lies above the others.
    for column in Column::ALL.into_iter().rev() {
        axes.draw_curve(svg, column, lines);
    }
    axes.draw_ends(svg, lines);
}

impl Axes {
    fn new(frame: Frame, speeds: Domain, lines: &[&Line]) -> Self {
        let (left, right) = (frame.left + LEFT, frame.left + frame.width - RIGHT);
        let (top, bottom) = (frame.top + TOP, frame.top + frame.height - BOTTOM);
        let sizes = || lines.iter().map(|line| line.size as f64);
        // With room beside the first and the last point.
        let lengths = Domain {
            least: sizes().fold(64.0, f64::min) / 1.4,
            greatest: sizes().fold(65_507.0, f64::max) * 1.4,
        };
        Self {
            left,
            right,
            top,
            bottom,
            lengths: Scale::new(lengths, left, right),
            speeds: Scale::new(speeds, bottom, top),
        }
    }

    /// The axis of speeds, with lines across the panel.
    fn draw_speeds(&self, svg: &mut Svg, domain: Domain) {
        let font = Font::new(12, GREY).ending();
        for (ticks, stroke) in [(domain.between(), FINE_GRID), (domain.decades(), GRID)] {
            for speed in ticks {
                let y = self.speeds.place(speed);
                svg.line((self.left, y), (self.right, y), stroke);
                let number = grouped(speed.round() as usize);
                svg.text((self.left - 7.0, y + 4.0), &number, font);
            }
        }
        svg.line((self.left, self.top), (self.left, self.bottom), AXIS);
        svg.text((self.left - 7.0, self.top - 12.0), "MB/s", font);
    }

    /// The axis of lengths, with a number under each point.
    fn draw_lengths(&self, svg: &mut Svg, lines: &[&Line]) {
        svg.line((self.left, self.bottom), (self.right, self.bottom), AXIS);
        let font = Font::new(12, GREY).centred();
        for line in lines {
            let x = self.lengths.place(line.size as f64);
            svg.line((x, self.bottom), (x, self.bottom + 5.0), AXIS);
            svg.text((x, self.bottom + 18.0), &grouped(line.size), font);
        }
        let middle = (self.left + self.right) / 2.0;
        svg.text((middle, self.bottom + 36.0), "bytes of the datagram", font);
    }

    fn point(&self, line: &Line, speed: f64) -> Point {
        (
            self.lengths.place(line.size as f64),
            self.speeds.place(speed),
        )
    }

    fn draw_curve(&self, svg: &mut Svg, column: Column, lines: &[&Line]) {
        let speeds = lines
            .iter()
            .filter_map(|line| Some((*line, line.speed(column)?)));
        let speeds: Vec<(&Line, Summary)> = speeds.collect();
        if speeds.is_empty() {
            return;
        }
        let style = style::of(column);
        let points: Vec<Point> = speeds
            .iter()
            .map(|(line, speed)| self.point(line, speed.median))
            .collect();
        svg.polyline(&points, style.stroke());
        for ((line, speed), point) in speeds.iter().zip(points) {
            let (from, to) = (self.point(line, speed.lower), self.point(line, speed.upper));
            whisker(svg, from, to);
            svg.marker(style.shape, point, style.color);
        }
    }

    /// The speed at the end of each line.
    fn draw_ends(&self, svg: &mut Svg, lines: &[&Line]) {
        let Some(last) = lines.iter().max_by_key(|line| line.size) else {
            return;
        };
        let ends = Column::ALL.into_iter();
        let ends = ends.filter_map(|column| Some((column, last.speed(column)?.median)));
        let ends: Vec<(Column, f64)> = ends.collect();
        let places: Vec<f64> = ends
            .iter()
            .map(|(_, speed)| self.speeds.place(*speed))
            .collect();
        for ((column, speed), y) in ends.into_iter().zip(apart(&places, LABEL)) {
            let font = Font::new(13, style::of(column).color).bold();
            svg.text((self.right + 4.0, y + 4.0), &rounded(speed), font);
        }
    }
}
