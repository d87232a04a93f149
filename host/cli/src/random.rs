//! Random bytes from the system: keys, salts, nonces and session IDs.

use std::fs::File;
use std::io::{self, Read};

/// The system's source, opened once. Every read is whole or an error.
pub struct Random(File);

impl Random {
    pub fn open() -> io::Result<Self> {
        File::open("/dev/urandom").map(Self)
    }

    pub fn array<const LENGTH: usize>(&mut self) -> io::Result<[u8; LENGTH]> {
        let mut bytes = [0; LENGTH];
        self.0.read_exact(&mut bytes)?;
        Ok(bytes)
    }

    /// The salt of a stream.
    pub fn salt(&mut self, length: usize) -> io::Result<Vec<u8>> {
        let mut salt = vec![0; length];
        self.fill(&mut salt)?;
        Ok(salt)
    }

    pub fn fill(&mut self, bytes: &mut [u8]) -> io::Result<()> {
        self.0.read_exact(bytes)
    }

    pub fn word(&mut self) -> io::Result<u64> {
        self.array().map(u64::from_be_bytes)
    }
}

impl Read for Random {
    fn read(&mut self, bytes: &mut [u8]) -> io::Result<usize> {
        self.0.read(bytes)
    }
}
