//! How much was exchanged.

use std::fmt;

#[derive(Default)]
pub struct Tally {
    pub streams: usize,
    pub datagrams: usize,
    /// Of payload, both ways.
    pub bytes: usize,
}

impl fmt::Display for Tally {
    fn fmt(&self, f: &mut fmt::Formatter<'_>) -> fmt::Result {
        let Self {
            streams,
            datagrams,
            bytes,
        } = self;
        write!(
            f,
            "{streams} streams and {datagrams} datagrams with {bytes} bytes"
        )
    }
}
