//! Waiting for what is to happen soon.

use std::thread;
use std::time::{Duration, Instant};

use crate::PATIENCE;

/// How long to wait before a look is taken once more.
const PAUSE: Duration = Duration::from_millis(5);

/// Looks until it holds, or for too long.
pub fn holds(mut look: impl FnMut() -> bool) -> bool {
    let begun = Instant::now();
    loop {
        if look() {
            return true;
        }
        if begun.elapsed() > PATIENCE {
            return false;
        }
        thread::sleep(PAUSE);
    }
}

/// Waits until it holds.
pub fn until(what: &str, look: impl FnMut() -> bool) {
    assert!(holds(look), "not within {PATIENCE:?}: {what}");
}
