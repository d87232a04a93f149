//! A panel with a bar for each speed, in groups.

use super::scale::{Domain, Scale};
use super::style::{self, AXIS, DARK, GREY, GRID};
use super::svg::{Font, Svg};
use super::{whisker, Frame};
use crate::contest::Column;
use crate::kinds::Kind;
use crate::numbers::{grouped, rounded};
use crate::results::{Line, Summary};

/// Room in the frame: for a number behind the longest bar, and for those of speeds.
const RIGHT: f64 = 44.0;
const BOTTOM: f64 = 26.0;

/// The heights of a group's name, of a bar, and of the gap behind a group.
const NAME: f64 = 19.0;
const BAR: f64 = 13.0;
const GAP: f64 = 9.0;

/// A group for each line, from the top on.
pub fn draw(svg: &mut Svg, frame: Frame, lines: &[&Line]) {
    let domain = Domain::of_speeds(lines.iter().copied(), &[]);
    let (left, right) = (frame.left, frame.left + frame.width - RIGHT);
    let bottom = frame.top + frame.height - BOTTOM;
    let scale = Scale::new(domain, left, right);
    for speed in domain.decades() {
        let x = scale.place(speed);
        svg.line((x, frame.top), (x, bottom), GRID);
        let font = Font::new(12, GREY).centred();
        let number = grouped(speed.round() as usize);
        svg.text((x.max(left + 8.0), bottom + 18.0), &number, font);
    }
    svg.line((left, frame.top), (left, bottom), AXIS);
    svg.line((left, bottom), (right, bottom), AXIS);
    let mut top = frame.top;
    for line in lines {
        top = group(svg, scale, left, top, line);
    }
}

/// One line's bars under its name. Answers where the next group begins.
fn group(svg: &mut Svg, scale: Scale, left: f64, top: f64, line: &Line) -> f64 {
    let mut name = format!("{}, {} bytes", line.kind.name(), grouped(line.size));
    name += match line.kind {
        Kind::Ghash => " (but ours and BearSSL: GMAC)",
        Kind::Poly1305 => " (nettle: with AES)",
        _ => "",
    };
    svg.text((left + 6.0, top + 14.0), &name, Font::new(12, DARK));
    let mut top = top + NAME;
    let columns = Column::ALL.into_iter();
    for (column, speed) in columns.filter_map(|c| Some((c, line.speed(c)?))) {
        bar(svg, scale, left, top, column, speed);
        top += BAR;
    }
    top + GAP
}

/// A bar with its column's mark at its end, as in the legend, and its number.
fn bar(svg: &mut Svg, scale: Scale, left: f64, top: f64, column: Column, speed: Summary) {
    let style = style::of(column);
    let (end, middle) = (scale.place(speed.median), top + BAR / 2.0);
    svg.rectangle((left, top + 2.5), end - left, BAR - 5.0, style.color);
    let (from, to) = (scale.place(speed.lower), scale.place(speed.upper));
    whisker(svg, (from, middle), (to, middle));
    svg.marker(style.shape, (end, middle), style.color);
    let font = Font::new(12, style.color).bold();
    let after = to.max(end + 5.0) + 5.0;
    svg.text((after, middle + 4.0), &rounded(speed.median), font);
}
