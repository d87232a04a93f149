//! Files that are read as far as they matter.

use std::fs::File;
use std::io::Read;
use std::path::Path;

use crate::failure::{About, Outcome};

/// The first bytes of a file: `most` of them and one more, which tells that it is longer.
pub fn read_front(path: &Path, most: usize) -> Outcome<Vec<u8>> {
    let mut bytes = Vec::new();
    let read = File::open(path).and_then(|file| {
        let mut front = file.take(most as u64 + 1);
        front.read_to_end(&mut bytes)
    });
    read.about(path.display())?;
    Ok(bytes)
}
