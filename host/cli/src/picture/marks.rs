//! The marks of entries: a bar whose height tells the length, and a shape where it differs.

use super::svg::{Point, Svg};
use crate::compare::Kind;

/// Which of both recordings, and its side of a lane's line.
#[derive(Clone, Copy, Debug, PartialEq, Eq)]
pub enum Side {
    First,
    Second,
}

impl Side {
    pub const ALL: [Self; 2] = [Self::First, Self::Second];

    pub fn name(self) -> &'static str {
        match self {
            Self::First => "first",
            Self::Second => "second",
        }
    }

    /// Upwards is less.
    pub fn sign(self) -> f64 {
        match self {
            Self::First => -1.0,
            Self::Second => 1.0,
        }
    }
}

/// Half the size of a shape.
pub const RADIUS: f64 = 4.5;

/// Between the line and a bar, and between a bar and its shape.
const GAP: f64 = 1.5;

/// A hollow bar is so wide at least, or it would look filled.
const HOLLOW: f64 = 3.5;

/// Narrower bars stand too close for a refusal's number beside them.
const NUMBERED: f64 = 2.0;

/// One entry.
pub struct Mark {
    pub side: Side,
    /// In the middle of the bar, on the lane's line.
    pub place: Point,
    pub width: f64,
    pub height: f64,
    pub kind: Option<Kind>,
    /// The number with which the library refuses it.
    pub refusal: Option<u64>,
}

impl Mark {
    pub fn draw(&self, svg: &mut Svg) {
        let (x, y) = self.place;
        let class = match self.kind {
            Some(_) => "differ",
            None => self.side.name(),
        };
        let (width, class) = match self.refusal {
            Some(_) => (self.width.max(HOLLOW), format!("{class} refused")),
            None => (self.width, format!("{class} bar")),
        };
        let near = match self.side {
            Side::First => y - GAP - self.height,
            Side::Second => y + GAP,
        };
        svg.rectangle(&class, (x - width / 2.0, near), width, self.height);
        if let Some(kind) = self.kind {
            Shape::of(kind).draw(svg, self.side, (x, self.tip()));
        }
    }

    /// Where the shape's middle is.
    fn tip(&self) -> f64 {
        self.place.1 + self.side.sign() * (self.height + 2.0 * GAP + RADIUS)
    }

    /// The refusal's number beside the tip.
    pub fn draw_number(&self, svg: &mut Svg) {
        if let Some(number) = self.refusal.filter(|_| self.width >= NUMBERED) {
            let place = (self.place.0 + RADIUS + GAP, self.tip() + 3.5);
            svg.text("small number", place, &number.to_string());
        }
    }
}

/// The shapes of differences: who cannot tell the colours apart tells these apart.
#[derive(Clone, Copy, Debug, PartialEq, Eq)]
pub enum Shape {
    Diamond,
    Square,
    Circle,
    Triangle,
}

impl Shape {
    /// Each with what it means.
    pub const ALL: [(Self, &'static str); 4] = [
        (Self::Diamond, "bytes differ"),
        (Self::Square, "length differs"),
        (Self::Circle, "direction or clock differs"),
        (Self::Triangle, "in one only"),
    ];

    pub fn of(kind: Kind) -> Self {
        match kind {
            Kind::Byte(_) => Self::Diamond,
            Kind::Length(..) => Self::Square,
            Kind::Meta => Self::Circle,
            Kind::FirstOnly | Kind::SecondOnly => Self::Triangle,
        }
    }

    pub fn draw(self, svg: &mut Svg, side: Side, (x, y): Point) {
        let (class, r) = ("differ mark", RADIUS);
        match self {
            Self::Diamond => {
                let corners = [(x, y - r), (x + r, y), (x, y + r), (x - r, y)];
                svg.polygon(class, &corners);
            }
            Self::Square => {
                let half = r * 0.85;
                svg.rectangle(class, (x - half, y - half), 2.0 * half, 2.0 * half);
            }
            Self::Circle => svg.circle(class, (x, y), r * 0.95),
            Self::Triangle => {
                // Its tip points away from the line.
                let (tip, base) = (y + side.sign() * r, y - side.sign() * r);
                svg.polygon(class, &[(x, tip), (x + r, base), (x - r, base)]);
            }
        }
    }
}
