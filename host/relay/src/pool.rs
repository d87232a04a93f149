//! Salt pools.

use std::fmt;

use crate::ffi::{self, PoolWords};
use crate::Method;

/// How many salts a pool can hold, and the words of each.
const SALTS: usize = 256;
const RECORD_WORDS: usize = 6;

/// How many seconds a salt is kept.
const KEPT: u64 = 60;

/// The salts of the requests that a server accepted in the last 60 seconds.
///
/// A pool serves one key. It holds 256 salts; while all are kept, a new request is
/// [`Refusal::Full`](crate::Refusal::Full). A refusal leaves the pool as it was.
///
/// ```
/// use relay::{Method, Pool};
///
/// let pool = Pool::new(Method::Aes128Gcm);
/// assert_eq!(pool.kept(1_000), 0);
/// ```
pub struct Pool {
    words: Box<PoolWords>,
}

impl Pool {
    /// The number of words that a pool is.
    pub const WORDS: usize = 1 + SALTS * RECORD_WORDS;

    /// Makes a pool without salts, for a method.
    pub fn new(method: Method) -> Self {
        let mut words = Box::new([0; Self::WORDS]);
        ffi::pool_new(method, &mut words).expect("every method has a pool");
        Self { words }
    }

    /// The method that the pool is for. Words from elsewhere may have none.
    pub fn method(&self) -> Option<Method> {
        Method::from_number(self.words[0])
    }

    /// How many salts are kept at a clock.
    pub fn kept(&self, clock: u64) -> usize {
        let records = self.words[1..].chunks_exact(RECORD_WORDS);
        records
            .filter(|record| record[0] != 0 && clock.saturating_sub(record[1]) <= KEPT)
            .count()
    }

    /// The pool as words, to be stored: the method's number, and 256 records of 6.
    ///
    /// A host that restores an older copy than its last accepted request accepts the
    /// requests in between a second time.
    pub fn words(&self) -> &[u64; Self::WORDS] {
        &self.words
    }

    /// The pool that the words are.
    ///
    /// Any words have a meaning: faulty ones lead to refusals or to other salts. A
    /// first word that is not the key's method makes every call
    /// [`Refusal::Settings`](crate::Refusal::Settings).
    pub fn from_words(words: &[u64; Self::WORDS]) -> Self {
        Self {
            words: Box::new(*words),
        }
    }

    pub(crate) fn words_mut(&mut self) -> &mut PoolWords {
        &mut self.words
    }
}

impl fmt::Debug for Pool {
    fn fmt(&self, f: &mut fmt::Formatter<'_>) -> fmt::Result {
        f.debug_struct("Pool")
            .field("method", &self.method())
            .finish_non_exhaustive()
    }
}
