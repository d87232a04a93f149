//! The time axis that both recordings have.

use std::collections::HashMap;

use super::label::grouped;
use crate::compare::Recording;

/// Seconds between ticks that people count in; then days by powers of ten.
const STEPS: [u64; 18] = [
    1, 2, 5, 10, 20, 30, 60, 120, 300, 600, 1_200, 1_800, 3_600, 7_200, 14_400, 28_800, 43_200,
    86_400,
];
const DAY: u64 = 86_400;

/// The most ticks behind the first.
const MOST_TICKS: f64 = 10.0;

/// Up to here an axis is told in seconds alone.
const ONLY_SECONDS: f64 = 120.0;

/// From a recording's first clock on, in pixels.
pub struct Axis {
    from: f64,
    to: f64,
    /// How many seconds it has.
    seconds: f64,
    /// How many entries a second has room for: as many as either recording has in it, so that
    /// entries that both have stand at one place.
    rooms: HashMap<u64, usize>,
}

impl Axis {
    pub fn new(recordings: &[Recording; 2], from: f64, to: f64) -> Self {
        let [first, second] = recordings.each_ref().map(Recording::seconds);
        let mut rooms = HashMap::new();
        for recording in recordings {
            for (second, order) in seconds_and_orders(recording) {
                let room: &mut usize = rooms.entry(second).or_default();
                *room = (*room).max(order + 1);
            }
        }
        Self {
            from,
            to,
            seconds: first.max(second),
            rooms,
        }
    }

    pub fn place(&self, seconds: f64) -> f64 {
        self.from + (self.to - self.from) * seconds / self.seconds
    }

    /// Where a recording's entries stand: those of one second in their order within it.
    pub fn places(&self, recording: &Recording) -> Vec<f64> {
        let all = seconds_and_orders(recording).into_iter();
        let place = |(second, order): (u64, usize)| {
            let room = self.rooms.get(&second).copied().unwrap_or(1);
            self.place(second as f64 + (order as f64 + 0.5) / room as f64)
        };
        all.map(place).collect()
    }

    /// Places and labels of ticks, from 0.
    pub fn ticks(&self) -> Vec<(f64, String)> {
        let step = self.step();
        let last = (self.seconds / step as f64) as u64;
        let tick = |number: u64| {
            let second = number.saturating_mul(step);
            (self.place(second as f64), self.label(second, step))
        };
        (0..=last).map(tick).collect()
    }

    fn step(&self) -> u64 {
        let fits = |step: &u64| self.seconds / *step as f64 <= MOST_TICKS;
        let days = (1..).map_while(|power| 10_u64.checked_pow(power)?.checked_mul(DAY));
        let mut steps = STEPS.into_iter().chain(days);
        steps.find(fits).unwrap_or(u64::MAX)
    }

    fn label(&self, second: u64, step: u64) -> String {
        let (hours, minutes, seconds) = (second / 3_600, second / 60 % 60, second % 60);
        if step >= DAY {
            format!("{} d", grouped(second / DAY))
        } else if self.seconds <= ONLY_SECONDS {
            format!("{second} s")
        } else if self.seconds <= 3_600.0 {
            format!("{minutes}:{seconds:02}")
        } else {
            format!("{hours}:{minutes:02}:{seconds:02}")
        }
    }
}

/// The second of each entry since the recording's first clock, and how many entries of that
/// second are before it.
fn seconds_and_orders(recording: &Recording) -> Vec<(u64, usize)> {
    let (start, mut passed) = (recording.start(), HashMap::new());
    let of_entry = |clock: u64| {
        let count: &mut usize = passed.entry(clock).or_default();
        *count += 1;
        (clock - start, *count - 1)
    };
    let clocks = recording.entries.iter().map(|entry| entry.clock);
    clocks.map(of_entry).collect()
}

#[cfg(test)]
mod tests {
    use std::collections::HashMap;

    use relay::recording::Entry;

    use super::{Axis, Recording};
    use crate::compare::Bodies;

    fn labels(seconds: f64) -> Vec<String> {
        let axis = Axis {
            from: 0.0,
            to: 100.0,
            seconds,
            rooms: HashMap::new(),
        };
        let ticks = axis.ticks();
        assert!(ticks
            .iter()
            .all(|(place, _)| (0.0..=100.0001).contains(place)));
        ticks.into_iter().map(|(_, label)| label).collect()
    }

    #[test]
    fn ticks_are_few_and_even() {
        assert_eq!(labels(1.0), ["0 s", "1 s"]);
        assert_eq!(labels(25.0), ["0 s", "5 s", "10 s", "15 s", "20 s", "25 s"]);
        assert_eq!(labels(200.0)[1], "0:20");
        assert_eq!(labels(7_200.0)[1], "0:20:00");
        assert_eq!(labels(864_000.0)[1], "1 d");
        for seconds in [1e7, 1e12, u64::MAX as f64] {
            assert!((2..=11).contains(&labels(seconds).len()), "{seconds}");
        }
    }
    fn recording(clocks: &[u64]) -> Recording<'static> {
        let entry = |clock: &u64| Entry {
            direction: 0,
            clock: *clock,
            body: b"",
        };
        Recording {
            name: String::new(),
            entries: clocks.iter().map(entry).collect(),
            bodies: Bodies::Sealed,
        }
    }

    #[test]
    fn both_recordings_begin_at_the_axis_and_entries_of_both_stand_at_one_place() {
        let recordings = [
            recording(&[70, 70, 73]),
            recording(&[1_000, 1_000, 1_000, 1_000]),
        ];
        let axis = Axis::new(&recordings, 0.0, 400.0);
        assert_eq!(axis.places(&recordings[0]), [12.5, 37.5, 350.0]);
        assert_eq!(axis.places(&recordings[1]), [12.5, 37.5, 62.5, 87.5]);
        let back = [recording(&[9, 8]), recording(&[])];
        let axis = Axis::new(&back, 0.0, 200.0);
        assert_eq!(axis.places(&back[0]), [150.0, 50.0]);
    }
}
