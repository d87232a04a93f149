//! Made-up results for the tests of the table and the plot.

use crate::about::About;
use crate::contest::{Column, Samples};
use crate::kinds::{Call, Kind, AES_METHODS, CHACHA20, METHODS, SIP004_METHODS};
use crate::results::Line;
use crate::table;

pub fn about() -> About {
    About {
        cpu: "A <processor> & its name".to_string(),
        openssl: "OpenSSL 0.0.0 1 Jan 2000".to_string(),
        with: "OPENSSL_ia32cap=0xffffffffffffffff:0xffffffffffffffff".to_string(),
        without: "OPENSSL_ia32cap=0x400:0x0 env:0:0".to_string(),
        nettle: "nettle 0.0".to_string(),
        gcrypt: "libgcrypt 0.0.0".to_string(),
        mbedtls: "mbedTLS 0.0.0".to_string(),
        sodium: "libsodium 0.0.0".to_string(),
        sodium_with: "SSE2".to_string(),
        compared: 100,
        rounds: 5,
        batches: 3,
    }
}

/// A line of every kind, with speeds around these numbers of MB/s.
pub fn lines() -> Vec<Line> {
    let mut lines = Vec::new();
    for method in METHODS {
        for call in [Call::Seal, Call::Open, Call::Refuse] {
            let kind = Kind::Datagram(method, call);
            lines.extend([64, 512, 1_400, 9_000, 65_507].map(|size| {
                let [a, b, c] = [20.0, 9.0, 7.0].map(|speed| speed * (size as f64).sqrt());
                line(kind, size, [30.0, 35.0, 33.0, 28.0, a, b, c])
            }));
        }
        lines.push(line(
            Kind::Chunk(method, Call::Seal),
            1_400,
            [30.0, 60.0, 70.0, 50.0, 900.0, 700.0, 500.0],
        ));
    }
    for method in AES_METHODS.into_iter().chain([CHACHA20]) {
        let speeds = [30.0, 90.0, 110.0, 80.0, 12_345.0, 2_345.0, 1_234.0];
        lines.push(line(Kind::Body(method, Call::Seal), 65_507, speeds));
    }
    for method in SIP004_METHODS {
        lines.push(line(
            Kind::Sip004(method, Call::Open),
            1_400,
            [25.0, 35.0, 33.0, 28.0, 800.0, 600.0, 400.0],
        ));
    }
    lines.extend(primitives().map(|kind| {
        let speeds = [200.0, 100.0, 150.0, 120.0, 6_000.0, 3_000.0, 2_000.0];
        line(kind, 65_504, speeds)
    }));
    lines.push(against_plain(Kind::Hash, 65_503));
    lines.push(against_plain(Kind::Subkey, 64));
    lines
}

fn primitives() -> [Kind; 8] {
    let counter = |key_length| Kind::Counter { key_length };
    let stream = |rounds| Kind::Stream { rounds };
    [
        counter(16),
        counter(24),
        counter(32),
        Kind::Ghash,
        stream(20),
        stream(12),
        stream(8),
        Kind::Poly1305,
    ]
}

/// The speeds are those of the columns of its section, in their order, and again from the
/// first where it has more.
fn line(kind: Kind, size: usize, speeds: [f64; 7]) -> Line {
    let columns = table::columns(kind.section());
    let speeds = speeds.into_iter().cycle();
    let times = columns.zip(speeds.map(|speed| times(size, speed)));
    Line::new(kind, size, &times_of(times))
}

fn against_plain(kind: Kind, size: usize) -> Line {
    let (ours, plain) = (times(size, 200.0), times(size, 150.0));
    let times = times_of([(Column::Ours, ours), (Column::Plain, plain)]);
    Line::new(kind, size, &times)
}

/// These columns' samples, and none of the others.
pub fn times_of(columns: impl IntoIterator<Item = (Column, Vec<f64>)>) -> Samples {
    let mut samples = Samples::default();
    for (column, times) in columns {
        samples[column as usize] = times;
    }
    samples
}

/// Nanoseconds of calls around a speed.
fn times(size: usize, speed: f64) -> Vec<f64> {
    let factors = [0.8, 0.9, 1.0, 1.1, 1.2];
    factors
        .map(|factor| size as f64 * 1e3 / (speed * factor))
        .into()
}
