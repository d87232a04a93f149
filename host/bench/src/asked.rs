//! What is asked of datagrams with ChaCha20: to be no slower than the best other without
//! processor instructions, short ones apart. It is said and not demanded: another machine or
//! a busy one would give another answer.

use crate::contest::Column;
use crate::kinds::{Call, Kind, CHACHA20};
use crate::numbers::{grouped, rounded};
use crate::results::Line;

/// From this size on so much is asked for.
const SIZE: usize = 512;
const RATIO: f64 = 1.0;

/// What is asked for, and whether the row with the lowest ratio gives it.
pub fn statement(lines: &[Line]) -> String {
    let asked = format!(
        "Asked for with ChaCha20 from {} bytes on: {RATIO:.1} of the best other without instructions.",
        grouped(SIZE)
    );
    let rows = lines.iter().filter(|line| is_meant(line));
    let ratios = rows.filter_map(|line| {
        let best = line.best(Column::WITHOUT)?;
        Some((line, line.ratio(best)?.median))
    });
    let lowest = ratios.min_by(|(_, a), (_, b)| a.total_cmp(b));
    let Some((line, ratio)) = lowest else {
        return format!("{asked} Ours was not measured.");
    };
    format!(
        "{asked} Ours at the lowest ({}, {} bytes): {}, {}.",
        line.kind.name(),
        grouped(line.size),
        rounded(ratio),
        if ratio >= RATIO { "met" } else { "not met" }
    )
}

/// Sealing and opening.
fn is_meant(line: &Line) -> bool {
    let kinds = [Call::Seal, Call::Open].map(|call| Kind::Datagram(CHACHA20, call));
    kinds.contains(&line.kind) && line.size >= SIZE
}

#[cfg(test)]
mod tests {
    use super::statement;
    use crate::contest::Column;
    use crate::kinds::{Call, Kind, CHACHA20};
    use crate::results::Line;
    use crate::samples::times_of;

    /// Ours needs 10 microseconds, the others so many nanoseconds.
    fn line(call: Call, size: usize, nettle: f64, openssl: f64) -> Line {
        let times = times_of([
            (Column::Ours, vec![1e4]),
            (Column::NettleWithout, vec![nettle]),
            (Column::OpenSslWithout, vec![openssl]),
            (Column::SodiumWith, vec![1.0]),
        ]);
        Line::new(Kind::Datagram(CHACHA20, call), size, &times)
    }

    #[test]
    fn the_lowest_ratio_decides() {
        let met = [
            line(Call::Seal, 512, 2e4, 3e4),
            line(Call::Open, 1_400, 4e4, 11e3),
        ];
        let said = statement(&met);
        assert!(
            said.ends_with("(method 3, open, 1,400 bytes): 1.10, met."),
            "{said}"
        );
        let missed = [line(Call::Seal, 512, 2e4, 9e3)];
        assert!(statement(&missed).ends_with(": 0.900, not met."));
    }

    #[test]
    fn short_ones_and_forgeries_do_not_count() {
        let lines = [
            line(Call::Seal, 88, 1e3, 1e3),
            line(Call::Refuse, 512, 1e3, 1e3),
        ];
        assert!(statement(&lines).ends_with("Ours was not measured."));
    }
}
