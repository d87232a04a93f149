//! Where the library and the rules part.

use std::error::Error;
use std::fmt;

/// What the library did that the rules do not allow, in plain words.
#[derive(Debug)]
pub struct Disagreement(pub String);

/// An error of these words.
pub fn disagree<T>(words: String) -> Result<T, Disagreement> {
    Err(Disagreement(words))
}

impl fmt::Display for Disagreement {
    fn fmt(&self, f: &mut fmt::Formatter<'_>) -> fmt::Result {
        f.write_str(&self.0)
    }
}

impl Error for Disagreement {}
