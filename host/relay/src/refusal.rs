//! Why a call was refused.

use std::error::Error;
use std::fmt;

use crate::answer;

/// Why a call was refused.
///
/// Where several reasons would fit, the call gives the first one in the order
/// that it names. No refusal changes a [`Pool`](crate::Pool) or a
/// [`SealSession`](crate::SealSession); of a [`Table`](crate::Table) only a
/// datagram's [`Replay`](Refusal::Replay) changes anything: it counts one more repeat
/// in the datagram's session; of a stream only
/// [`NotAuthentic`](Refusal::NotAuthentic), [`Malformed`](Refusal::Malformed) and
/// [`Empty`](Refusal::Empty) change anything: they end the half that opens.
///
/// ```
/// use relay::{Key, Method, Peer, Refusal, Table};
///
/// let key = Key::new(Method::Aes256Gcm, &[7; 32])?;
/// let caller = Peer { first: 0, second: 1, port: 4000 };
/// let refusal = Table::new(60)?.open_server(&key, 1_000, caller, &[0; 31], &mut []).unwrap_err();
/// assert_eq!(refusal, Refusal::Length);
/// assert_eq!(refusal.number(), 2);
/// # Ok::<(), Refusal>(())
/// ```
#[derive(Clone, Copy, Debug, PartialEq, Eq, Hash)]
pub enum Refusal {
    /// Number 1: a key or a salt has another length than its method asks for, a
    /// datagram's nonce is missing, a retention is not lawful, a pool is another method's,
    /// or words that the host brought hold no lawful state. Keys and retentions are looked
    /// at where they are made, as [`Invalid`](crate::Invalid).
    Settings,
    /// Number 2: a datagram has under 32 (with ChaCha 40) or over 65,507 bytes, or a chunk
    /// over 65,535. In the 2017 edition a datagram has at least its salt and 16 bytes, and
    /// a chunk 16,383 at most. A settings file has 36 to 65,535 bytes.
    Length,
    /// Number 3: the output buffer is shorter than the bytes due.
    Room,
    /// Number 4: a tag or the hash of a settings file is wrong, or the stream has ended.
    NotAuthentic,
    /// Number 5: the header is too short, or its address or padding is bad. In the 2017
    /// edition: a stream's length is above 16,383. Of a file: it is no well-formed one.
    Malformed,
    /// Number 6: the type byte is the other direction's, or no type at all.
    Type,
    /// Number 7: the timestamp and the clock differ by more than 30 seconds.
    Time,
    /// Number 8: the packet ID is not fresh, or the salt was seen before.
    Replay,
    /// Number 9: a new session while 64 are alive, or a new salt while 256 are kept.
    Full,
    /// Number 10: bytes of a stream are missing.
    More {
        /// How many bytes are wanted in all, counted from the first byte that the
        /// call was given.
        wanted: usize,
    },
    /// Number 11: the packet IDs of a session or the counter of a stream are used up.
    Counter,
    /// Number 12: the address, the padding or the session IDs may not be sealed, or
    /// settings may not be written.
    Argument,
    /// Number 13: the datagram is meant for another client, or the response answers
    /// another request.
    Binding,
    /// Number 14: a stream's payload has no bytes.
    Empty,
    /// Number 15: a settings file has a setting that is not known and may not be passed
    /// over.
    UnknownSetting {
        /// The lowest number of such a setting, below 128.
        number: u16,
    },
}

impl Refusal {
    /// The refusal of a number that the library returned, with the first word of
    /// its answer.
    ///
    /// # Panics
    ///
    /// If there is no such number: the library is then not the one that was proved.
    pub(crate) fn from_library(number: u64, first: u64) -> Self {
        match number {
            1 => Self::Settings,
            2 => Self::Length,
            3 => Self::Room,
            4 => Self::NotAuthentic,
            5 => Self::Malformed,
            6 => Self::Type,
            7 => Self::Time,
            8 => Self::Replay,
            9 => Self::Full,
            10 => Self::More {
                wanted: answer::length(first),
            },
            11 => Self::Counter,
            12 => Self::Argument,
            13 => Self::Binding,
            14 => Self::Empty,
            15 => Self::UnknownSetting {
                number: answer::half_word(first),
            },
            _ => unreachable!("librelay.a returned {number}, which is no refusal of relay.h"),
        }
    }

    /// The refusal's number, 1 to 15, as C callers get it.
    pub fn number(self) -> u64 {
        match self {
            Self::Settings => 1,
            Self::Length => 2,
            Self::Room => 3,
            Self::NotAuthentic => 4,
            Self::Malformed => 5,
            Self::Type => 6,
            Self::Time => 7,
            Self::Replay => 8,
            Self::Full => 9,
            Self::More { .. } => 10,
            Self::Counter => 11,
            Self::Argument => 12,
            Self::Binding => 13,
            Self::Empty => 14,
            Self::UnknownSetting { .. } => 15,
        }
    }
}

impl fmt::Display for Refusal {
    fn fmt(&self, f: &mut fmt::Formatter<'_>) -> fmt::Result {
        let words = match self {
            Self::Settings => {
                "a salt of the wrong length, another method's pool, or unlawful words"
            }
            Self::Length => "a datagram, a chunk or a file that is too short or too long",
            Self::Room => "the output buffer is too short",
            Self::NotAuthentic => "a wrong tag or hash, or the stream has ended",
            Self::Malformed => "malformed header, address, padding, length or file",
            Self::Type => "wrong type byte",
            Self::Time => "timestamp over 30 seconds from the clock",
            Self::Replay => "packet ID not fresh, or salt seen before",
            Self::Full => "no room for a new session or salt",
            Self::More { wanted } => return write!(f, "bytes missing: {wanted} wanted in all"),
            Self::Counter => "packet IDs or stream counter used up",
            Self::Argument => {
                "address, padding or session IDs may not be sealed, or settings not written"
            }
            Self::Binding => "meant for another client or request",
            Self::Empty => "a stream's payload of no bytes",
            Self::UnknownSetting { number } => {
                return write!(
                    f,
                    "setting {number} is not known, and may not be passed over"
                )
            }
        };
        f.write_str(words)
    }
}

impl Error for Refusal {}

#[cfg(test)]
mod tests {
    use super::Refusal;

    #[test]
    fn numbers_are_read_back() {
        for number in 1..=15 {
            assert_eq!(Refusal::from_library(number, 43).number(), number);
        }
    }

    #[test]
    fn the_count_wanted_is_kept() {
        let refusal = Refusal::from_library(10, 43);
        assert_eq!(refusal, Refusal::More { wanted: 43 });
        assert_eq!(refusal.to_string(), "bytes missing: 43 wanted in all");
    }

    #[test]
    fn the_unknown_setting_is_kept() {
        let refusal = Refusal::from_library(15, 127);
        assert_eq!(refusal, Refusal::UnknownSetting { number: 127 });
        let words = "setting 127 is not known, and may not be passed over";
        assert_eq!(refusal.to_string(), words);
    }

    #[test]
    #[should_panic(expected = "librelay.a returned 16")]
    fn an_unknown_number_is_a_fault_of_the_library() {
        Refusal::from_library(16, 0);
    }
}
