//! Where a thread that was started early waits for its work.

use std::sync::{Condvar, Mutex, PoisonError};

use super::lock;

/// Room for one piece of work. A newer one takes the place of one that was not begun.
pub struct Station<T> {
    work: Mutex<Option<T>>,
    given: Condvar,
}

impl<T> Station<T> {
    pub fn new() -> Self {
        Self {
            work: Mutex::new(None),
            given: Condvar::new(),
        }
    }

    pub fn give(&self, work: T) {
        *lock(&self.work) = Some(work);
        self.given.notify_one();
    }

    /// Waits for work.
    pub fn take(&self) -> T {
        let mut place = lock(&self.work);
        loop {
            match place.take() {
                Some(work) => return work,
                None => {
                    place = self
                        .given
                        .wait(place)
                        .unwrap_or_else(PoisonError::into_inner);
                }
            }
        }
    }
}
