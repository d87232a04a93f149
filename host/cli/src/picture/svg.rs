//! The few elements of SVG that the picture is made of. What they look like is said once, by
//! their classes, for light and for dark.

use std::fmt::{Arguments, Write};

pub type Point = (f64, f64);

/// Colours of a set that people with any colour vision tell apart (Okabe and Ito).
const STYLE: &str = "\
text { font: 12px system-ui, 'Segoe UI', Helvetica, Arial, 'DejaVu Sans', sans-serif; fill: #222; }
.title { font-size: 20px; font-weight: bold; }
.id { font-family: ui-monospace, 'DejaVu Sans Mono', Menlo, Consolas, monospace; }
.grey { fill: #595959; }
.small { font-size: 10px; }
.number { paint-order: stroke; stroke: #fff; stroke-width: 3px; font-weight: bold; }
.middle { text-anchor: middle; }
.end { text-anchor: end; }
.ground { fill: #fff; }
.band { fill: #f5f6f8; }
.grid { stroke: #dcdfe4; stroke-width: 1; }
.line { stroke: #8a9099; stroke-width: 1; }
.first { fill: #0072b2; stroke: #0072b2; }
.second { fill: #00805c; stroke: #00805c; }
.differ { fill: #c44e00; stroke: #c44e00; }
.bar { stroke-width: 0; }
.refused { fill: none; stroke-width: 1.4; }
.mark { stroke: #fff; stroke-width: 1; }
@media (prefers-color-scheme: dark) {
  text { fill: #e4e6e9; }
  .grey { fill: #a4abb5; }
  .ground { fill: #14171b; }
  .band { fill: #1b1f25; }
  .grid { stroke: #2d333b; }
  .line { stroke: #6c747f; }
  .first { fill: #56b4e9; stroke: #56b4e9; }
  .second { fill: #3ec79a; stroke: #3ec79a; }
  .differ { fill: #ff9a52; stroke: #ff9a52; }
  .refused { fill: none; }
  .mark, .number { stroke: #14171b; }
}
";

/// A picture in the making.
pub struct Svg {
    elements: String,
}

impl Svg {
    pub fn new() -> Self {
        let elements = String::new();
        Self { elements }
    }

    fn push(&mut self, element: Arguments) {
        // A string takes all.
        let _ = writeln!(self.elements, "{element}");
    }

    /// What is drawn until [`close`](Self::close) has this to tell where it is pointed at.
    pub fn open(&mut self, told: &str) {
        self.push(format_args!("<g><title>{}</title>", escaped(told)));
    }

    pub fn close(&mut self) {
        self.push(format_args!("</g>"));
    }

    pub fn line(&mut self, class: &str, (x1, y1): Point, (x2, y2): Point) {
        self.push(format_args!(
            r#"<line class="{class}" x1="{x1:.1}" y1="{y1:.1}" x2="{x2:.1}" y2="{y2:.1}"/>"#
        ));
    }

    /// From its corner of the least coordinates.
    pub fn rectangle(&mut self, class: &str, (x, y): Point, width: f64, height: f64) {
        self.push(format_args!(
            r#"<rect class="{class}" x="{x:.2}" y="{y:.2}" width="{width:.2}" height="{height:.2}"/>"#
        ));
    }

    pub fn circle(&mut self, class: &str, (x, y): Point, radius: f64) {
        self.push(format_args!(
            r#"<circle class="{class}" cx="{x:.1}" cy="{y:.1}" r="{radius:.1}"/>"#
        ));
    }

    pub fn polygon(&mut self, class: &str, corners: &[Point]) {
        let corners = corners.iter().map(|(x, y)| format!("{x:.1},{y:.1}"));
        let corners = corners.collect::<Vec<_>>().join(" ");
        self.push(format_args!(
            r#"<polygon class="{class}" points="{corners}"/>"#
        ));
    }

    /// The text's base line is at the place's height.
    pub fn text(&mut self, class: &str, (x, y): Point, text: &str) {
        let text = escaped(text);
        self.push(format_args!(
            r#"<text class="{class}" x="{x:.1}" y="{y:.1}">{text}</text>"#
        ));
    }

    pub fn finish(self, width: f64, height: f64, title: &str) -> String {
        let title = escaped(title);
        let size = format!(r#"viewBox="0 0 {width} {height}" width="{width}" height="{height}""#);
        let elements = self.elements;
        format!(
            r#"<svg xmlns="http://www.w3.org/2000/svg" {size} role="img">
<title>{title}</title>
<style>
{STYLE}</style>
<rect class="ground" width="100%" height="100%"/>
{elements}</svg>
"#
        )
    }
}

/// Text without markup. What XML cannot hold is shown as a letter that is not known.
fn escaped(text: &str) -> String {
    let mut escaped = String::with_capacity(text.len());
    for letter in text.chars() {
        match letter {
            '&' => escaped.push_str("&amp;"),
            '<' => escaped.push_str("&lt;"),
            '>' => escaped.push_str("&gt;"),
            '\u{fffe}' | '\u{ffff}' => escaped.push('\u{fffd}'),
            letter if letter.is_control() => escaped.push('\u{fffd}'),
            letter => escaped.push(letter),
        }
    }
    escaped
}

#[cfg(test)]
mod tests {
    use super::{escaped, Svg};

    #[test]
    fn text_is_no_markup() {
        assert_eq!(escaped("a<b>&c"), "a&lt;b&gt;&amp;c");
        assert_eq!(escaped("a\0\n\u{ffff}b"), "a\u{fffd}\u{fffd}\u{fffd}b");
    }

    #[test]
    fn elements_stand_in_the_file() {
        let mut svg = Svg::new();
        svg.open("told");
        svg.line("grid", (1.0, 2.0), (3.0, 4.25));
        svg.close();
        svg.text("small end", (5.0, 6.0), "words");
        let file = svg.finish(10.0, 20.0, "name");
        assert!(file.contains(r#"viewBox="0 0 10 20""#));
        assert!(file.contains("<g><title>told</title>\n<line class=\"grid\" x1=\"1.0\""));
        assert!(file.contains(r#"<text class="small end" x="5.0" y="6.0">words</text>"#));
        assert!(file.contains("<title>name</title>"));
    }
}
