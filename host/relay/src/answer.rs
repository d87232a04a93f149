//! What the library answers: words that it writes, and a number that it returns.

use crate::Refusal;

/// The words of an answer. A function with fewer values leaves the rest 0.
pub(crate) type Answer = [u64; WORDS];

pub(crate) const WORDS: usize = 9;

/// What every function returns that refuses nothing.
const OK: u64 = 0;

/// The answer, or the refusal whose number was returned.
pub(crate) fn checked(number: u64, answer: Answer) -> Result<Answer, Refusal> {
    match number {
        OK => Ok(answer),
        _ => Err(Refusal::from_library(number, answer[0])),
    }
}

/// A place or a length in bytes. All of them lie within a buffer that was lent, or
/// are the sum of few 16-bit lengths.
pub(crate) fn length(word: u64) -> usize {
    usize::try_from(word).expect("a length fits the address space")
}

/// A port, a length of padding, or a number of a settings file.
pub(crate) fn half_word(word: u64) -> u16 {
    u16::try_from(word).expect("a port, padding or a file's number has 16 bits")
}
