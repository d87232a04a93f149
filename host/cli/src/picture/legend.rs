//! What the marks mean, and how many there are.

use super::lanes::Lanes;
use super::marks::{Mark, Shape, Side};
use super::svg::{Point, Svg};
use crate::compare::Comparison;

/// A sample and its words.
struct Item {
    sample: Sample,
    words: String,
}

enum Sample {
    Equal(Side),
    Shape(Shape),
    Refused,
}

/// Room of a sample, a line's height, and about the width of a letter.
const SAMPLE: f64 = 16.0;
pub const LINE: f64 = 20.0;
const LETTER: f64 = 6.4;
const BETWEEN: f64 = 22.0;

/// Draws the legend from its first line on, as wide as told: how many lines.
pub fn draw(
    svg: &mut Svg,
    from: Point,
    width: f64,
    comparison: &Comparison,
    lanes: &Lanes,
) -> usize {
    let (mut x, mut line) = (0.0, 0);
    for Item { sample, words } in items(comparison, lanes) {
        let wide = SAMPLE + words.chars().count() as f64 * LETTER;
        if x > 0.0 && x + wide > width {
            (x, line) = (0.0, line + 1);
        }
        let place = (from.0 + x, from.1 + line as f64 * LINE);
        sample.draw(svg, (place.0 + SAMPLE / 3.0, place.1 - 4.0));
        svg.text("plain", (place.0 + SAMPLE, place.1), &words);
        x += wide + BETWEEN;
    }
    line + 1
}

fn items(comparison: &Comparison, lanes: &Lanes) -> Vec<Item> {
    let item = |sample, words: String| Item { sample, words };
    let mut items = vec![
        item(Sample::Equal(Side::First), "first, above the line".into()),
        item(Sample::Equal(Side::Second), "second, below it".into()),
    ];
    for (shape, words) in Shape::ALL {
        let kinds = comparison.differences.iter().map(|one| Shape::of(one.kind));
        let count = kinds.filter(|kind| *kind == shape).count();
        items.push(item(Sample::Shape(shape), format!("{words}: {count}")));
    }
    if lanes.is_opened {
        let [first, second] = lanes.places.each_ref().map(|places| {
            let refused = places.iter().filter(|place| place.refusal.is_some());
            refused.count()
        });
        let words = format!("refused, by number: {first} of first, {second} of second");
        items.push(item(Sample::Refused, words));
    }
    items
}

impl Sample {
    fn draw(&self, svg: &mut Svg, (x, y): Point) {
        let bar = |side| Mark {
            side,
            place: match side {
                Side::First => (x, y + 6.0),
                Side::Second => (x, y - 6.0),
            },
            width: 5.0,
            height: 9.0,
            kind: None,
            refusal: None,
        };
        match *self {
            Self::Equal(side) => bar(side).draw(svg),
            Self::Refused => svg.rectangle("first refused", (x - 2.5, y - 4.5), 5.0, 9.0),
            Self::Shape(shape) => shape.draw(svg, Side::First, (x, y)),
        }
    }
}
