//! What a row's samples come to.

use crate::contest::{Column, Samples};
use crate::kinds::Kind;

/// Median and quartiles.
#[derive(Clone, Copy, Debug, PartialEq)]
pub struct Summary {
    pub lower: f64,
    pub median: f64,
    pub upper: f64,
}

impl Summary {
    /// `None` without samples.
    pub fn of(samples: &[f64]) -> Option<Self> {
        let mut sorted = samples.to_vec();
        sorted.sort_by(f64::total_cmp);
        let last = sorted.len().checked_sub(1)?;
        Some(Self {
            lower: sorted[last / 4],
            median: sorted[last / 2],
            upper: sorted[last * 3 / 4],
        })
    }

    /// From quartile to quartile, as a part of the median.
    pub fn spread(self) -> f64 {
        (self.upper - self.lower) / self.median
    }
}

/// A row of the table, for each column what it came to.
pub struct Line {
    pub kind: Kind,
    pub size: usize,
    speeds: [Option<Summary>; Column::ALL.len()],
    ratios: [Option<Summary>; Column::ALL.len()],
}

impl Line {
    /// From the nanoseconds of a call on `size` bytes.
    pub fn new(kind: Kind, size: usize, times: &Samples) -> Self {
        let ours = &times[Column::Ours as usize];
        Self {
            kind,
            size,
            speeds: Column::ALL.map(|column| {
                let times = times[column as usize].iter();
                // Bytes in a microsecond are MB/s.
                let speeds = times.map(|time| size as f64 * 1e3 / time);
                Summary::of(&speeds.collect::<Vec<_>>())
            }),
            ratios: Column::ALL.map(|column| {
                // Round by round, so that both sides met the same state of the machine.
                let pairs = times[column as usize].iter().zip(ours);
                let ratios = pairs.map(|(theirs, ours)| theirs / ours);
                Summary::of(&ratios.collect::<Vec<_>>())
            }),
        }
    }

    /// In MB/s.
    pub fn speed(&self, column: Column) -> Option<Summary> {
        self.speeds[column as usize]
    }

    /// How many times as fast as the column ours is.
    pub fn ratio(&self, column: Column) -> Option<Summary> {
        self.ratios[column as usize]
    }

    /// The fastest of some columns, at the median speed.
    pub fn best(&self, columns: impl IntoIterator<Item = Column>) -> Option<Column> {
        let columns = columns.into_iter();
        let medians = columns.filter_map(|column| Some((column, self.speed(column)?.median)));
        let best = medians.max_by(|(_, a), (_, b)| a.total_cmp(b));
        best.map(|(column, _)| column)
    }

    /// Calls a second of ours, at the median speed.
    pub fn rate(&self) -> Option<f64> {
        let speed = self.speed(Column::Ours)?;
        Some(speed.median * 1e6 / self.size as f64)
    }
}

#[cfg(test)]
mod tests {
    use super::{Line, Summary};
    use crate::contest::Column;
    use crate::kinds::Kind;
    use crate::samples::times_of;

    #[test]
    fn quartiles_are_samples() {
        let summary = Summary::of(&[5.0, 1.0, 4.0, 2.0, 3.0]).expect("there are samples");
        let expected = (2.0, 3.0, 4.0);
        assert_eq!((summary.lower, summary.median, summary.upper), expected);
        assert_eq!(Summary::of(&[]), None);
        let one = Summary::of(&[7.0]).expect("there is a sample");
        assert_eq!((one.lower, one.median, one.upper), (7.0, 7.0, 7.0));
        assert_eq!((summary.spread(), one.spread()), (2.0 / 3.0, 0.0));
    }

    #[test]
    fn speeds_and_rates_come_from_times() {
        // 1,000 bytes in 10 microseconds.
        let times = times_of([
            (Column::Ours, vec![1e4]),
            (Column::OpenSslWithout, vec![2e4]),
            (Column::OpenSslWith, vec![5e3]),
        ]);
        let line = Line::new(Kind::Ghash, 1_000, &times);
        let speed = |column| line.speed(column).map(|speed| speed.median);
        assert_eq!(speed(Column::Ours), Some(100.0));
        assert_eq!(speed(Column::OpenSslWithout), Some(50.0));
        assert_eq!(speed(Column::OpenSslWith), Some(200.0));
        assert_eq!(speed(Column::Plain), None);
        assert_eq!(line.rate(), Some(1e5));
    }

    #[test]
    fn ratios_are_taken_round_by_round() {
        // Twice as fast in each round, while the machine's speed changes.
        let times = times_of([
            (Column::Ours, vec![1.0, 5.0, 2.0]),
            (Column::OpenSslWithout, vec![2.0, 10.0, 4.0]),
        ]);
        let line = Line::new(Kind::Ghash, 1, &times);
        let ratio = line
            .ratio(Column::OpenSslWithout)
            .expect("both have samples");
        assert_eq!((ratio.lower, ratio.median, ratio.upper), (2.0, 2.0, 2.0));
        assert_eq!(line.ratio(Column::OpenSslWith), None);
    }

    #[test]
    fn the_best_is_the_fastest_of_those_measured() {
        let times = times_of([
            (Column::Ours, vec![1.0]),
            (Column::OpenSslWithout, vec![4.0]),
            (Column::NettleWithout, vec![3.0]),
        ]);
        let line = Line::new(Kind::Ghash, 1, &times);
        let without = [Column::OpenSslWithout, Column::NettleWithout];
        assert_eq!(line.best(without), Some(Column::NettleWithout));
        assert_eq!(line.best([Column::Plain]), None);
    }
}
