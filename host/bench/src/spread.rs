//! How far a run's samples lie apart, which tells what its figures are worth. It is said
//! and not demanded.

use crate::contest::Column;
use crate::numbers::{grouped, rounded};
use crate::results::{Line, Summary};

const TITLE: &str = "Spread: from quartile to quartile, in per cent of the median";

/// For our speeds and for the ratios, the spread of the middle row and of the widest.
pub fn lines(lines: &[Line]) -> Vec<String> {
    let speed = |line: &Line| line.speed(Column::Ours);
    let ratio = |line: &Line| line.ratio(line.best(Column::WITHOUT)?);
    vec![
        TITLE.to_string(),
        statement("our speed", lines, speed),
        statement(
            "our ratio to the best other without instructions",
            lines,
            ratio,
        ),
    ]
}

fn statement(name: &str, lines: &[Line], of: impl Fn(&Line) -> Option<Summary>) -> String {
    let spreads = lines
        .iter()
        .filter_map(|line| Some((of(line)?.spread(), line)));
    let mut spreads: Vec<(f64, &Line)> = spreads.collect();
    spreads.sort_by(|(a, _), (b, _)| a.total_cmp(b));
    let Some(&(widest, line)) = spreads.last() else {
        return format!("{name}: not measured");
    };
    let (middle, _) = spreads[(spreads.len() - 1) / 2];
    format!(
        "{name}: {} in the middle row, {} in the widest ({}: {}, {} bytes)",
        rounded(100.0 * middle),
        rounded(100.0 * widest),
        line.kind.section().title(),
        line.kind.name(),
        grouped(line.size)
    )
}

#[cfg(test)]
mod tests {
    use super::lines;
    use crate::contest::Column;
    use crate::kinds::Kind;
    use crate::results::Line;
    use crate::samples::times_of;

    /// With quartiles of the speed so many hundredths below and above its median.
    fn line(size: usize, hundredths: f64) -> Line {
        let factors = [1.0 - hundredths / 100.0, 1.0, 1.0 + hundredths / 100.0];
        let times = factors.map(|factor| size as f64 * 1e3 / (50.0 * factor));
        let [slow, median, fast] = times;
        let ours = vec![slow, slow, median, fast, fast];
        Line::new(Kind::Ghash, size, &times_of([(Column::Ours, ours)]))
    }

    #[test]
    fn the_middle_and_the_widest_are_named() {
        let said = lines(&[line(1_392, 10.0), line(64, 1.0), line(65_504, 2.0)]);
        let expected =
            "4.00 in the middle row, 20.0 in the widest (AES and GHASH: GHASH, 1,392 bytes)";
        assert_eq!(said[1], format!("our speed: {expected}"));
        assert!(said[2].ends_with("not measured"), "{}", said[2]);
    }
}
