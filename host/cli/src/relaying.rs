//! What both ends share: datagrams and streams between a front, where senders come from, and
//! backs, one for each of them.

pub mod address;
pub mod back;
pub mod copy;
pub mod datagrams;
pub mod lanes;
pub mod names;
pub mod older;
pub mod senders;
pub mod service;
pub mod source;
pub mod station;

use std::io;
use std::sync::{Mutex, MutexGuard, PoisonError};
use std::thread;
use std::time::Duration;

/// How long a thread rests behind an error of the system that may come again at once.
const REST: Duration = Duration::from_millis(10);

/// The stack of a thread. The library takes under 24 KiB of it; the system's resolver takes most.
const STACK: usize = 256 * 1024;

/// Locks. Nothing here panics with a lock held, and if it did, the words behind it would still
/// have a meaning.
pub fn lock<T>(mutex: &Mutex<T>) -> MutexGuard<'_, T> {
    mutex.lock().unwrap_or_else(PoisonError::into_inner)
}

/// Starts a thread that runs as long as the program.
pub fn start(name: &str, work: impl FnOnce() + Send + 'static) -> io::Result<()> {
    let thread = thread::Builder::new().name(name.into()).stack_size(STACK);
    thread.spawn(work).map(drop)
}

/// Rests behind an error, so that one that stays does not take the processor.
pub fn rest() {
    thread::sleep(REST);
}
