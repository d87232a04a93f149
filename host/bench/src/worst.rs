//! The worst case that is asked for, beside ours. It is said and not demanded:
//! another machine or a busy one would give another answer.

use crate::contest::Column;
use crate::kinds::Kind;
use crate::numbers::{grouped, rounded};
use crate::results::Line;

/// The longest datagrams, so many in a second.
const SIZE: usize = 65_507;
const RATE: usize = 400;

/// In MB/s.
pub const SPEED: f64 = (RATE * SIZE) as f64 / 1e6;

/// What is asked for, in words.
pub fn asked() -> String {
    let (size, speed) = (grouped(SIZE), rounded(SPEED));
    format!("{RATE} datagrams of {size} bytes a second = {speed} MB/s")
}

/// What is asked for, and whether the slowest call on such a datagram gives it.
pub fn statement(lines: &[Line]) -> String {
    let answer = slowest(lines).map_or_else(
        || "Ours was not measured.".to_string(),
        |(kind, speed, rate)| {
            format!(
                "Ours at the slowest ({}): {} a second = {} MB/s, {}.",
                kind.name(),
                grouped(rate as usize),
                rounded(speed),
                if speed >= SPEED { "met" } else { "not met" }
            )
        },
    );
    format!("Worst case asked for: {}. {answer}", asked())
}

/// Of our calls on whole datagrams of the longest size, with median speed and calls
/// a second.
fn slowest(lines: &[Line]) -> Option<(Kind, f64, f64)> {
    lines
        .iter()
        .filter(|line| matches!(line.kind, Kind::Datagram(..)) && line.size == SIZE)
        .filter_map(|line| Some((line.kind, line.speed(Column::Ours)?.median, line.rate()?)))
        .min_by(|(_, speed, _), (_, other, _)| speed.total_cmp(other))
}

#[cfg(test)]
mod tests {
    use super::{statement, SIZE};
    use crate::contest::Column;
    use crate::kinds::{Call, Kind, METHODS};
    use crate::results::Line;
    use crate::samples::times_of;

    /// A line of ours with so many datagrams a second.
    fn line(call: Call, size: usize, rate: f64) -> Line {
        let times = times_of([(Column::Ours, vec![1e9 / rate])]);
        Line::new(Kind::Datagram(METHODS[0], call), size, &times)
    }

    #[test]
    fn the_slowest_call_decides() {
        let met = [line(Call::Seal, SIZE, 900.0), line(Call::Open, SIZE, 400.5)];
        let said = statement(&met);
        assert!(said.contains("400 datagrams of 65,507 bytes a second = 26.2 MB/s"));
        assert!(said.contains("(method 1, open): 400 a second"), "{said}");
        assert!(said.ends_with(", met."), "{said}");
        let missed = [line(Call::Seal, SIZE, 399.0), line(Call::Open, SIZE, 800.0)];
        let said = statement(&missed);
        assert!(said.contains("(method 1, seal): 399 a second"), "{said}");
        assert!(said.ends_with(", not met."), "{said}");
    }

    #[test]
    fn shorter_datagrams_do_not_count() {
        let lines = [line(Call::Seal, 64, 1.0), line(Call::Seal, SIZE, 500.0)];
        assert!(statement(&lines).ends_with(", met."));
        assert!(statement(&[]).ends_with("not measured."));
    }
}
