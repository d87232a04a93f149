//! The clock of a host.

use std::sync::atomic::{AtomicU64, Ordering};
use std::time::{SystemTime, UNIX_EPOCH};

/// The system's clock in whole seconds since 1970, which never goes back.
///
/// A [`Table`](crate::Table) gives the answers of its rules for clocks that never go back.
/// The system's clock does, when somebody sets it or a time service steps it: a session
/// that was just forgotten would then be alive again. So a host makes one `Clock`, shares
/// it among its threads, and takes every `clock` of this crate from it.
///
/// | a step of the system's clock | this clock |
/// |---|---|
/// | forward | goes along. Time passes: sessions and salts may be forgotten at once. |
/// | back | stands still until the system's clock has caught up. |
///
/// Once it is more than 30 seconds from the clock of the other side, because one of them
/// was wrong or because this one stands still for so long, every datagram and every head of
/// a stream is [`Refusal::Time`](crate::Refusal::Time) at the one side or the other.
/// Nothing is accepted twice for it.
///
/// ```
/// use relay::Clock;
///
/// let clock = Clock::new();
/// let before = clock.now();
/// assert!(clock.now() >= before);
///
/// // State that was stored at a later clock is brought back.
/// clock.hold(before + 1_000);
/// assert_eq!(clock.now(), before + 1_000);
/// ```
#[derive(Debug, Default)]
pub struct Clock {
    offset: i64,
    /// The latest clock that was given out or held.
    latest: AtomicU64,
}

impl Clock {
    /// The system's clock.
    pub fn new() -> Self {
        Self::default()
    }

    /// A clock that is so many seconds ahead of the system's, or behind it.
    pub fn with_offset(seconds: i64) -> Self {
        Self {
            offset: seconds,
            latest: AtomicU64::new(0),
        }
    }

    /// The clock now, never less than in an earlier call from any thread. A system's clock
    /// before 1970 is 0.
    pub fn now(&self) -> u64 {
        let since = SystemTime::now().duration_since(UNIX_EPOCH);
        self.at(since.map_or(0, |duration| duration.as_secs()))
    }

    /// From now on the clock is never less than `at_least`: for state that was stored at
    /// that clock. One far ahead of the time makes the clock stand still until then.
    pub fn hold(&self, at_least: u64) {
        self.latest.fetch_max(at_least, Ordering::Relaxed);
    }

    /// The clock when the system's shows `system`.
    fn at(&self, system: u64) -> u64 {
        let clock = system.saturating_add_signed(self.offset);
        // Relaxed: there is an order of the changes to one variable, and it is this
        // variable alone that counts.
        self.latest.fetch_max(clock, Ordering::Relaxed).max(clock)
    }
}

#[cfg(test)]
mod tests {
    use std::thread;

    use super::Clock;

    #[test]
    fn it_stands_still_while_the_systems_is_behind() {
        let clock = Clock::new();
        let shown = [1_000, 1_001, 900, 0, 1_001, 1_002, 5_000, 4_999];
        let expected = [1_000, 1_001, 1_001, 1_001, 1_001, 1_002, 5_000, 5_000];
        assert_eq!(shown.map(|system| clock.at(system)), expected);
    }

    #[test]
    fn it_is_held() {
        let clock = Clock::new();
        clock.hold(2_000);
        clock.hold(1_500);
        assert_eq!(
            [1_000, 2_000, 2_001].map(|s| clock.at(s)),
            [2_000, 2_000, 2_001]
        );
    }

    #[test]
    fn offsets_stop_at_both_ends() {
        for (offset, system, expected) in [
            (31, 1_000, 1_031),
            (-31, 1_000, 969),
            (-31, 30, 0),
            (i64::MIN, u64::MAX, u64::MAX - (1 << 63)),
            (i64::MIN, 0, 0),
            (i64::MAX, u64::MAX, u64::MAX),
        ] {
            assert_eq!(Clock::with_offset(offset).at(system), expected);
        }
    }

    #[test]
    fn it_is_the_systems_and_the_offset() {
        let (clock, ahead) = (Clock::new(), Clock::with_offset(1_000));
        let now = clock.now();
        assert!(now > 1_600_000_000);
        assert!((now + 1_000..now + 1_060).contains(&ahead.now()));
    }

    #[test]
    fn no_thread_sees_it_go_back() {
        let clock = Clock::new();
        thread::scope(|scope| {
            for first in 0..4 {
                let clock = &clock;
                scope.spawn(move || {
                    let mut before = 0;
                    for step in 0..10_000 {
                        let now = clock.at(first + step * 37 % 1_000);
                        assert!(now >= before);
                        before = now;
                    }
                });
            }
        });
        assert_eq!(clock.at(0), 1_002);
    }
}
