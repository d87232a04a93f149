//! Colours, lines and marks.
//!
//! The colours are of a set that people with any colour vision tell apart (Okabe
//! and Ito), its yellow darkened to be read on white, and differ in grey too; dashes
//! and marks tell the lines apart without them.

use super::svg::{Shape, Stroke};
use crate::contest::Column;
use crate::kinds::Call;

pub const DARK: &str = "#222222";
pub const GREY: &str = "#555555";

const LIGHT: &str = "#dddddd";
const LIGHTER: &str = "#f0f0f0";

pub const AXIS: Stroke = line("#666666", 1.0, "");
pub const GRID: Stroke = line(LIGHT, 1.0, "");
pub const FINE_GRID: Stroke = line(LIGHTER, 1.0, "");
pub const WHISKER: Stroke = line(DARK, 1.2, "");

/// The speed that is asked for.
pub const ASKED: Stroke = line("#7a7a7a", 1.5, "3 3");

const fn line(color: &'static str, width: f64, dash: &'static str) -> Stroke {
    Stroke { color, width, dash }
}

/// How a column looks in every panel.
pub struct Style {
    pub label: &'static str,
    pub color: &'static str,
    dash: &'static str,
    pub shape: Shape,
}

impl Style {
    pub fn stroke(&self) -> Stroke {
        line(self.color, 2.5, self.dash)
    }
}

pub fn of(column: Column) -> Style {
    let (label, color, dash, shape) = match column {
        Column::Ours => ("ours, proved", "#0072b2", "", Shape::Circle),
        Column::OpenSslWithout => (OPENSSL_WITHOUT, "#d55e00", "9 4", Shape::Square),
        Column::NettleWithout => (NETTLE_WITHOUT, "#009e73", "14 4 3 4", Shape::Wedge),
        Column::BearSslWithout => (BEARSSL_WITHOUT, "#e69f00", "4 3", Shape::Cross),
        Column::GcryptWithout => (GCRYPT_WITHOUT, "#a6611a", "2 2", Shape::Plus),
        Column::OpenSslWith => (OPENSSL_WITH, "#333333", "2 4", Shape::Triangle),
        Column::NettleWith => (NETTLE_WITH, "#cc79a7", "5 3", Shape::Diamond),
        Column::BearSslWith => (BEARSSL_WITH, "#8f7c00", "10 3 3 3 3 3", Shape::Post),
        Column::MbedTlsWith => (MBEDTLS_WITH, "#4d9221", "6 2 1 2", Shape::Circle),
        Column::SodiumWith => (SODIUM_WITH, "#7b3294", "7 2 2 2", Shape::Beam),
        Column::Plain => ("plain Rust", "#56b4e9", "12 3 2 3", Shape::Plus),
    };
    Style {
        label,
        color,
        dash,
        shape,
    }
}

const OPENSSL_WITHOUT: &str = "OpenSSL without processor instructions";
const NETTLE_WITHOUT: &str = "nettle without processor instructions";
const OPENSSL_WITH: &str = "OpenSSL with processor instructions";
const NETTLE_WITH: &str = "nettle with processor instructions";
const BEARSSL_WITHOUT: &str = "BearSSL without processor instructions";
const BEARSSL_WITH: &str = "BearSSL with processor instructions";
const GCRYPT_WITHOUT: &str = "libgcrypt without processor instructions";
const MBEDTLS_WITH: &str = "mbedTLS with processor instructions";
const SODIUM_WITH: &str = "libsodium, which chooses processor instructions";

pub fn verb(call: Call) -> &'static str {
    match call {
        Call::Seal => "Seal",
        Call::Open => "Open",
        Call::Refuse => "Refuse a forgery",
    }
}
