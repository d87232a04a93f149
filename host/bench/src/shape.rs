//! Whether long counter mode is still what its shape allows: vectors depend on in-lining,
//! and a second caller can halve the speed without a word. It is said and not demanded.

use crate::contest::Column;
use crate::kinds::Kind;
use crate::numbers::rounded;
use crate::results::Line;

/// Ours is ahead of the written-out vectors. Below this part of their speed something was
/// lost.
const DUE: f64 = 1.0;

/// Our speed as a part of that of the same shape in plain Rust, for each key length.
pub fn statement(lines: &[Line]) -> String {
    let rows = lines.iter().filter_map(|line| match line.kind {
        Kind::Planes { key_length } => Some((key_length, line.ratio(Column::Plain)?.median)),
        _ => None,
    });
    let rows: Vec<(usize, f64)> = rows.collect();
    if rows.is_empty() {
        return "Long counter mode was not measured beside its shape in plain Rust.".to_string();
    }
    let parts = rows.iter().map(|(key_length, ratio)| {
        let key_bits = 8 * key_length;
        format!("{} with AES-{key_bits}", rounded(*ratio))
    });
    let parts: Vec<String> = parts.collect();
    let lost = rows.iter().any(|(_, ratio)| *ratio < DUE);
    format!(
        "Long counter mode beside the same shape in plain Rust: {}.{}",
        parts.join(", "),
        if lost {
            " Below 1 it is no longer in line or in vectors: see docs/PROVING.md."
        } else {
            ""
        }
    )
}

#[cfg(test)]
mod tests {
    use super::statement;
    use crate::contest::Column;
    use crate::kinds::Kind;
    use crate::results::Line;
    use crate::samples::times_of;

    fn line(key_length: usize, ours: f64) -> Line {
        let times = times_of([(Column::Ours, vec![ours]), (Column::Plain, vec![1e4])]);
        Line::new(Kind::Planes { key_length }, 1_000, &times)
    }

    #[test]
    fn a_loss_is_told() {
        let kept = statement(&[line(16, 1e4), line(32, 8e3)]);
        assert!(kept.contains("1.00 with AES-128, 1.25 with AES-256."));
        assert!(!kept.contains("Below"));
        assert!(statement(&[line(16, 2e4)]).contains("Below 1 "));
        assert!(statement(&[]).contains("not measured"));
    }
}
