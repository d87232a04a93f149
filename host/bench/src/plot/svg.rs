//! Writes the few elements of SVG that the picture is made of.

use std::fmt::Write;

pub type Point = (f64, f64);

#[derive(Clone, Copy)]
pub struct Stroke {
    pub color: &'static str,
    pub width: f64,
    /// Lengths of dashes and gaps; empty for a line without gaps.
    pub dash: &'static str,
}

/// The marks of points. Who cannot tell the colours apart tells these apart.
#[derive(Clone, Copy)]
pub enum Shape {
    Circle,
    Square,
    Triangle,
    Diamond,
    /// A triangle on its tip.
    Wedge,
    Plus,
    /// A plus turned by half a right angle.
    Cross,
    /// A bar on its short side, and on its long one.
    Post,
    Beam,
}

#[derive(Clone, Copy)]
pub struct Font {
    size: u32,
    color: &'static str,
    weight: &'static str,
    anchor: &'static str,
}

impl Font {
    pub fn new(size: u32, color: &'static str) -> Self {
        Self {
            size,
            color,
            weight: "normal",
            anchor: "start",
        }
    }

    pub fn bold(self) -> Self {
        let weight = "bold";
        Self { weight, ..self }
    }

    /// The text's middle is at its place, and not its start.
    pub fn centred(self) -> Self {
        let anchor = "middle";
        Self { anchor, ..self }
    }

    /// The text's end is at its place.
    pub fn ending(self) -> Self {
        let anchor = "end";
        Self { anchor, ..self }
    }
}

/// A picture in the making.
pub struct Svg {
    width: f64,
    height: f64,
    elements: String,
}

impl Svg {
    pub fn new(width: f64, height: f64) -> Self {
        Self {
            width,
            height,
            elements: String::new(),
        }
    }

    fn push(&mut self, element: std::fmt::Arguments) {
        writeln!(self.elements, "  {element}").expect("a string takes all");
    }

    pub fn line(&mut self, (x1, y1): Point, (x2, y2): Point, stroke: Stroke) {
        let stroke = stroke.attributes();
        self.push(format_args!(
            r#"<line x1="{x1:.1}" y1="{y1:.1}" x2="{x2:.1}" y2="{y2:.1}" {stroke}/>"#
        ));
    }

    pub fn polyline(&mut self, points: &[Point], stroke: Stroke) {
        let (points, stroke) = (list(points), stroke.attributes());
        self.push(format_args!(
            r#"<polyline points="{points}" fill="none" stroke-linejoin="round" {stroke}/>"#
        ));
    }

    pub fn rectangle(&mut self, (x, y): Point, width: f64, height: f64, fill: &str) {
        self.push(format_args!(
            r#"<rect x="{x:.1}" y="{y:.1}" width="{width:.1}" height="{height:.1}" fill="{fill}"/>"#
        ));
    }

    /// The mark of a point, with a white edge that parts it from lines.
    pub fn marker(&mut self, shape: Shape, (x, y): Point, color: &str) {
        let corners = |r: f64| match shape {
            Shape::Circle => None,
            Shape::Square => Some([(-r, -r), (r, -r), (r, r), (-r, r)].to_vec()),
            Shape::Triangle => Some([(0.0, -r), (r, r), (-r, r)].to_vec()),
            Shape::Diamond => Some([(0.0, -r), (r, 0.0), (0.0, r), (-r, 0.0)].to_vec()),
            Shape::Wedge => Some([(0.0, r), (r, -r), (-r, -r)].to_vec()),
            Shape::Plus => Some(plus(r, r / 2.5)),
            Shape::Cross => Some(turned(&plus(1.2 * r, r / 2.5))),
            Shape::Post => Some(bar(r / 2.0, 1.3 * r)),
            Shape::Beam => Some(bar(1.3 * r, r / 2.0)),
        };
        let paint = format!(r##"fill="{color}" stroke="#ffffff" stroke-width="1""##);
        match corners(5.0) {
            None => self.push(format_args!(
                r#"<circle cx="{x:.1}" cy="{y:.1}" r="5" {paint}/>"#
            )),
            Some(corners) => {
                let corners: Vec<Point> = corners.iter().map(|(a, b)| (x + a, y + b)).collect();
                let corners = list(&corners);
                self.push(format_args!(r#"<polygon points="{corners}" {paint}/>"#));
            }
        }
    }

    /// The text's base line is at the place's height.
    pub fn text(&mut self, (x, y): Point, text: &str, font: Font) {
        let Font {
            size,
            color,
            weight,
            anchor,
        } = font;
        let text = escaped(text);
        let face = format!(r#"font-size="{size}" font-weight="{weight}" fill="{color}""#);
        self.push(format_args!(
            r#"<text x="{x:.1}" y="{y:.1}" text-anchor="{anchor}" {face}>{text}</text>"#
        ));
    }

    /// The file. Its ground is white whatever colour the viewer has.
    pub fn finish(self, title: &str) -> String {
        let Self {
            width,
            height,
            elements,
        } = self;
        let title = escaped(title);
        let size = format!(r#"viewBox="0 0 {width} {height}" width="{width}" height="{height}""#);
        let fonts = "Helvetica, Arial, 'DejaVu Sans', sans-serif";
        format!(
            r##"<svg xmlns="http://www.w3.org/2000/svg" {size} role="img" font-family="{fonts}">
  <title>{title}</title>
  <rect width="100%" height="100%" fill="#ffffff"/>
{elements}</svg>
"##
        )
    }
}

impl Stroke {
    fn attributes(self) -> String {
        let Self { color, width, dash } = self;
        let mut text = format!(r#"stroke="{color}" stroke-width="{width}""#);
        if !dash.is_empty() {
            text += &format!(r#" stroke-dasharray="{dash}""#);
        }
        text
    }
}

/// The corners of a rectangle, half as wide and half as high as it.
fn bar(w: f64, h: f64) -> Vec<Point> {
    vec![(-w, -h), (w, -h), (w, h), (-w, h)]
}

/// Two bars across each other, so long and so thick to each side.
fn plus(long: f64, thick: f64) -> Vec<Point> {
    let arm = [(-thick, -long), (thick, -long), (thick, -thick)];
    let mut corners = Vec::new();
    let mut turned = arm;
    for _ in 0..4 {
        corners.extend(turned);
        turned = turned.map(|(x, y)| (-y, x));
    }
    corners
}

/// By half a right angle around the middle.
fn turned(corners: &[Point]) -> Vec<Point> {
    let turn = std::f64::consts::FRAC_1_SQRT_2;
    let corners = corners.iter();
    corners
        .map(|(x, y)| (turn * (x - y), turn * (x + y)))
        .collect()
}

fn list(points: &[Point]) -> String {
    let points = points.iter().map(|(x, y)| format!("{x:.1},{y:.1}"));
    points.collect::<Vec<_>>().join(" ")
}

fn escaped(text: &str) -> String {
    let text = text.replace('&', "&amp;").replace('<', "&lt;");
    text.replace('>', "&gt;").replace('"', "&quot;")
}

#[cfg(test)]
mod tests {
    use super::{escaped, Font, Stroke, Svg};

    #[test]
    fn text_is_no_markup() {
        assert_eq!(escaped(r#"a<b & "c">"#), "a&lt;b &amp; &quot;c&quot;&gt;");
    }

    #[test]
    fn elements_stand_in_the_file() {
        let mut svg = Svg::new(10.0, 20.0);
        let stroke = Stroke {
            color: "#000000",
            width: 1.5,
            dash: "2 3",
        };
        svg.line((1.0, 2.0), (3.0, 4.25), stroke);
        svg.text((5.0, 6.0), "words", Font::new(9, "#111111").ending());
        let file = svg.finish("name");
        assert!(file.contains(r#"viewBox="0 0 10 20""#));
        assert!(file.contains(r#"<line x1="1.0" y1="2.0" x2="3.0" y2="4.2""#));
        assert!(file.contains(r#"stroke-dasharray="2 3""#));
        assert!(file.contains(r#"text-anchor="end" font-size="9""#));
        assert!(file.contains(r##"fill="#111111">words</text>"##));
        assert!(file.contains("<title>name</title>"));
    }
}
