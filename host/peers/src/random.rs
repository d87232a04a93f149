//! Random bytes: keys, salts and what is sent.

use std::fs::File;
use std::io::{self, Read};

pub fn bytes(length: usize) -> io::Result<Vec<u8>> {
    let mut bytes = vec![0; length];
    File::open("/dev/urandom")?.read_exact(&mut bytes)?;
    Ok(bytes)
}
