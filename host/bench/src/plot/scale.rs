//! Logarithmic scales, and labels that are kept apart.

use crate::contest::Column;
use crate::results::Line;

/// What an axis shows, from its least number to its greatest.
#[derive(Clone, Copy, Debug, PartialEq)]
pub struct Domain {
    pub least: f64,
    pub greatest: f64,
}

impl Domain {
    /// From tick to tick, so that it holds all quartiles and these others.
    pub fn of_speeds<'a>(lines: impl Iterator<Item = &'a Line>, others: &[f64]) -> Self {
        let mut numbers = others.to_vec();
        for line in lines {
            let speeds = Column::ALL.into_iter().filter_map(|c| line.speed(c));
            numbers.extend(speeds.flat_map(|speed| [speed.lower, speed.upper]));
        }
        let least = numbers.iter().copied().fold(f64::INFINITY, f64::min);
        let greatest = numbers.iter().copied().fold(0.0, f64::max);
        if greatest == 0.0 {
            let (least, greatest) = (1.0, 10.0);
            return Self { least, greatest };
        }
        let ticks = |number: f64| {
            let decade = 10_f64.powf(number.log10().floor());
            [1.0, 2.0, 5.0, 10.0].map(|factor| factor * decade)
        };
        let below = ticks(least).into_iter().rev().find(|tick| *tick <= least);
        let least = below.unwrap_or(least);
        // The least tick alone would be an axis without length.
        let fits = |tick: &f64| *tick >= greatest && *tick > least;
        let above = ticks(greatest).into_iter().find(fits);
        let greatest = above.unwrap_or(10.0 * greatest);
        Self { least, greatest }
    }

    /// Its powers of ten.
    pub fn decades(self) -> Vec<f64> {
        self.steps(&[1.0])
    }

    /// Twice and five times its powers of ten.
    pub fn between(self) -> Vec<f64> {
        self.steps(&[2.0, 5.0])
    }

    fn steps(self, factors: &[f64]) -> Vec<f64> {
        let (from, to) = (self.least.log10().floor(), self.greatest.log10().ceil());
        let exponents = from as i32..=to as i32;
        let steps =
            exponents.flat_map(|exponent| factors.iter().map(move |f| f * 10_f64.powi(exponent)));
        // A hair of room for the rounding of powers.
        let (least, greatest) = (self.least * 0.999, self.greatest * 1.001);
        steps
            .filter(|step| (least..=greatest).contains(step))
            .collect()
    }
}

/// Places on an axis, in pixels.
#[derive(Clone, Copy)]
pub struct Scale {
    domain: Domain,
    from: f64,
    to: f64,
}

impl Scale {
    /// The domain's least number is at `from`, its greatest at `to`.
    pub fn new(domain: Domain, from: f64, to: f64) -> Self {
        Self { domain, from, to }
    }

    pub fn place(self, number: f64) -> f64 {
        let Domain { least, greatest } = self.domain;
        let part = (number / least).ln() / (greatest / least).ln();
        self.from + part * (self.to - self.from)
    }
}

/// Moves places apart, as little as needed, until neighbours have a gap between
/// them. The order is kept.
pub fn apart(places: &[f64], gap: f64) -> Vec<f64> {
    let mut order: Vec<usize> = (0..places.len()).collect();
    order.sort_by(|&a, &b| places[a].total_cmp(&places[b]));
    // Groups that touch are moved as one, around their middle.
    let mut groups: Vec<(f64, usize)> = Vec::new();
    for &index in &order {
        groups.push((places[index], 1));
        while let [.., (before, first), (after, second)] = groups[..] {
            let needed = gap * (first + second) as f64 / 2.0;
            if after - before >= needed {
                break;
            }
            let count = first + second;
            let middle = (before * first as f64 + after * second as f64) / count as f64;
            groups.truncate(groups.len() - 2);
            groups.push((middle, count));
        }
    }
    let mut moved = vec![0.0; places.len()];
    let mut next = order.into_iter();
    for (middle, count) in groups {
        let first = middle - gap * (count - 1) as f64 / 2.0;
        for (step, index) in next.by_ref().take(count).enumerate() {
            moved[index] = first + gap * step as f64;
        }
    }
    moved
}

#[cfg(test)]
mod tests {
    use super::{apart, Domain, Scale};
    use crate::samples;

    #[test]
    fn equal_factors_have_equal_lengths() {
        let domain = Domain {
            least: 1.0,
            greatest: 1_000.0,
        };
        let scale = Scale::new(domain, 300.0, 0.0);
        for (number, place) in [(1.0, 300.0), (10.0, 200.0), (100.0, 100.0), (1_000.0, 0.0)] {
            assert!((scale.place(number) - place).abs() < 1e-9, "{number}");
        }
    }

    #[test]
    fn a_domain_ends_at_ticks() {
        let domain = |others: &[f64]| {
            let Domain { least, greatest } = Domain::of_speeds([].into_iter(), others);
            (least.round(), greatest.round())
        };
        assert_eq!(domain(&[26.2, 3_000.0]), (20.0, 5_000.0));
        assert_eq!(domain(&[19.9, 5_001.0]), (10.0, 10_000.0));
        assert_eq!(domain(&[10.0]), (10.0, 20.0));
        assert_eq!(domain(&[]), (1.0, 10.0));
        let lines = samples::lines();
        let all = Domain::of_speeds(lines.iter(), &[]);
        assert_eq!((all.least.round(), all.greatest.round()), (20.0, 20_000.0));
    }

    #[test]
    fn ticks_are_in_the_domain() {
        let domain = Domain {
            least: 10.0,
            greatest: 1_000.0,
        };
        let rounded = |numbers: Vec<f64>| -> Vec<u64> {
            numbers.iter().map(|number| number.round() as u64).collect()
        };
        assert_eq!(rounded(domain.decades()), [10, 100, 1_000]);
        assert_eq!(rounded(domain.between()), [20, 50, 200, 500]);
    }

    #[test]
    fn labels_are_moved_apart() {
        assert_eq!(apart(&[], 10.0), [0.0; 0]);
        assert_eq!(apart(&[5.0, 50.0], 10.0), [5.0, 50.0]);
        assert_eq!(apart(&[50.0, 52.0], 10.0), [46.0, 56.0]);
        assert_eq!(apart(&[52.0, 50.0], 10.0), [56.0, 46.0]);
        let moved = apart(&[50.0, 51.0, 60.0], 10.0);
        for pair in moved.windows(2) {
            assert!(pair[1] - pair[0] >= 10.0 - 1e-9, "{moved:?}");
        }
    }
}
