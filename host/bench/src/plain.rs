//! What one would write in plain Rust around a library of ciphers: something to be
//! measured against where the libraries have nothing.

mod address;
mod blake3;
mod chacha;
mod chachas;
#[allow(unsafe_code)]
mod planes;
mod poly1305;
mod sessions;

pub use address::Address;
pub use blake3::{hash as blake3, DeriveKey};
pub use chacha::ChaCha;
pub use chachas::Plain;
pub use planes::AesPlanes;
pub use sessions::{Peer, Sessions};

/// Why a call is refused, with the number that the proved library gives.
#[derive(Clone, Copy, Debug, PartialEq, Eq)]
pub enum Refusal {
    Length = 2,
    Room = 3,
    NotAuthentic = 4,
    Malformed = 5,
    Type = 6,
    Time = 7,
    Replay = 8,
    Full = 9,
    Counter = 11,
    Argument = 12,
}
