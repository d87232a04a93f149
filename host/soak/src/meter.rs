//! How much the library did, and in which time.

use std::ops::AddAssign;
use std::time::{Duration, Instant};

#[derive(Clone, Copy, Default)]
pub struct Meter {
    pub datagrams: u64,
    pub bytes: u64,
    time: Duration,
}

impl Meter {
    /// Does the work on a datagram of so many bytes.
    pub fn measure<T>(&mut self, bytes: usize, work: impl FnOnce() -> T) -> T {
        let start = Instant::now();
        let done = work();
        self.time += start.elapsed();
        self.datagrams += 1;
        self.bytes += bytes as u64;
        done
    }

    pub fn seconds(&self) -> f64 {
        self.time.as_secs_f64()
    }
}

impl AddAssign for Meter {
    fn add_assign(&mut self, other: Self) {
        self.datagrams += other.datagrams;
        self.bytes += other.bytes;
        self.time += other.time;
    }
}
