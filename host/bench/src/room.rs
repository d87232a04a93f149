//! Room for the contexts of C libraries.

use std::cell::RefCell;
use std::os::raw::c_void;

/// Room for a context, aligned for whatever it holds.
pub struct Room(RefCell<Vec<u128>>);

impl Room {
    pub fn new(bytes: usize) -> Self {
        Self(RefCell::new(vec![0; bytes.div_ceil(16)]))
    }

    /// Lends the room to one use at a time.
    pub fn with<T>(&self, work: impl FnOnce(*mut c_void) -> T) -> T {
        work(self.0.borrow_mut().as_mut_ptr().cast())
    }
}
