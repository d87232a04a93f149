//! Runs and times contestants in this process.

use std::collections::HashMap;
use std::io;
use std::time::{Duration, Instant};

use crate::options::Pace;
use crate::rows::{self, Row, Work};

/// A process that runs contestants, each named by its row and its place there.
pub trait Runner {
    /// What the contestant makes of the row's input.
    fn output(&mut self, row: usize, contestant: usize) -> io::Result<Vec<u8>>;

    /// The time of one call in nanoseconds, as one sample.
    fn nanoseconds(&mut self, row: usize, contestant: usize) -> io::Result<f64>;
}

/// This process.
pub struct Here<'a> {
    rows: &'a [Row],
    pace: Pace,
    /// Shared by all contestants, as long as the longest that a row asks for.
    buffer: Vec<u8>,
    /// How many calls a batch has, by row and contestant: found out once.
    calls: HashMap<(usize, usize), u32>,
}

impl<'a> Here<'a> {
    pub fn new(rows: &'a [Row], pace: Pace) -> Self {
        let longest = rows.iter().map(|row| row.buffer).max().unwrap_or(0);
        Self {
            rows,
            pace,
            buffer: vec![0; longest],
            calls: HashMap::new(),
        }
    }

    /// The contestant's work, the row's input and its part of the buffer.
    fn find(&mut self, row: usize, contestant: usize) -> io::Result<(&Work, &[u8], &mut [u8])> {
        let missing = || io::Error::new(io::ErrorKind::InvalidInput, "no such contestant");
        let row = self.rows.get(row).ok_or_else(missing)?;
        let contestant = row.contestants.get(contestant).ok_or_else(missing)?;
        let buffer = &mut self.buffer[..row.buffer];
        Ok((&contestant.work, &row.input, buffer))
    }
}

impl Runner for Here<'_> {
    fn output(&mut self, row: usize, contestant: usize) -> io::Result<Vec<u8>> {
        let (work, input, buffer) = self.find(row, contestant)?;
        rows::fill(buffer);
        work(input, buffer);
        Ok(buffer.to_vec())
    }

    fn nanoseconds(&mut self, row: usize, contestant: usize) -> io::Result<f64> {
        let (pace, known) = (self.pace, self.calls.get(&(row, contestant)).copied());
        let (work, input, buffer) = self.find(row, contestant)?;
        let mut call = || work(input, buffer);
        let calls = known.unwrap_or_else(|| calls_of_a_batch(pace, &mut call));
        let least = least_time(pace.batches, calls, &mut call);
        self.calls.insert((row, contestant), calls);
        Ok(least.as_nanos() as f64 / f64::from(calls))
    }
}

/// Doubled until even the least time of such batches is long enough: one that was
/// interrupted seems long, and the least of several seldom was.
fn calls_of_a_batch(pace: Pace, call: &mut impl FnMut()) -> u32 {
    let mut calls = 1;
    while least_time(pace.batches, calls, call) < pace.batch {
        calls *= 2;
    }
    calls
}

/// The least time of several batches. Whatever else the machine does adds to a batch's
/// time and takes nothing from it. The first batch warms the caches after another
/// contestant or process had them.
fn least_time(batches: usize, calls: u32, call: &mut impl FnMut()) -> Duration {
    let times = (0..batches).map(|_| {
        let start = Instant::now();
        for _ in 0..calls {
            call();
        }
        start.elapsed()
    });
    times.min().expect("a pace has batches")
}

#[cfg(test)]
mod tests {
    use std::thread;
    use std::time::{Duration, Instant};

    use super::{calls_of_a_batch, least_time, Pace};

    const PACE: Pace = Pace {
        rounds: 1,
        batches: 3,
        batch: Duration::from_millis(50),
    };

    /// Longer than a busy machine keeps a process waiting.
    const INTERRUPTION: Duration = Duration::from_millis(200);

    fn spin(time: Duration) {
        let start = Instant::now();
        while start.elapsed() < time {}
    }

    /// A function whose calls of these numbers take much longer.
    fn interrupted_in(calls: &'static [u32]) -> impl FnMut() {
        let mut number = 0;
        move || {
            spin(Duration::from_micros(100));
            if calls.contains(&number) {
                thread::sleep(INTERRUPTION);
            }
            number += 1;
        }
    }

    #[test]
    fn an_interrupted_batch_is_no_sample() {
        let mut call = interrupted_in(&[0]);
        let least = least_time(PACE.batches, 10, &mut call);
        assert!(least >= Duration::from_millis(1), "{least:?}");
        assert!(least < INTERRUPTION, "{least:?}");
    }

    /// One of the three batches of one call, and of two, is interrupted.
    #[test]
    fn an_interrupted_batch_is_not_long_enough() {
        let calls = calls_of_a_batch(PACE, &mut interrupted_in(&[1, 4]));
        assert!(calls > 2, "{calls}");
    }
}
