//! Recordings of datagrams.
//!
//! A recording is a count of entries (4 bytes, at most 4,096); for each entry the offset
//! of its body in the file (4), its length (2, at most 65,507), a direction (1: 0, 1, or 2
//! for unknown) and a clock (8), big-endian; then the bodies back to back, the first one
//! right behind these contents. Bytes behind the last body are no part of it.

use std::fmt;

use crate::{answer, ffi, Refusal, MAX_DATAGRAM};

/// The longest recording that is compared, in bytes.
pub const MAX_COMPARED: usize = 32_768;

/// Room for the text of every comparison.
const TEXT_ROOM: usize = 65_536;

/// Where two recordings differ, as lines of text.
///
/// The first line is `entries A B` with both counts. Then comes one line for each index
/// from 0 that differs, the first that fits of `length I LA LB`, `meta I` (direction or
/// clock) and `differ I byte P` (the first byte that differs, from 0), or `first-only I`,
/// `second-only I`. Offsets are not compared.
///
/// ```
/// // Clock 7, direction 0, one body of two bytes.
/// let first = *b"\0\0\0\x01\0\0\0\x13\0\x02\0\0\0\0\0\0\0\0\x07ab";
/// let mut second = first;
/// second[20] = b'x';
/// assert_eq!(relay::recording::compare(&first, &second)?, "entries 1 1\ndiffer 0 byte 1\n");
/// # Ok::<(), relay::Refusal>(())
/// ```
///
/// # Errors
///
/// In this order: [`Refusal::Length`] if either is over [`MAX_COMPARED`] bytes,
/// [`Refusal::Malformed`] if either is no well-formed recording.
pub fn compare(first: &[u8], second: &[u8]) -> Result<String, Refusal> {
    let mut text = vec![0; TEXT_ROOM];
    let length = compare_into(first, second, &mut text)?;
    text.truncate(length);
    Ok(String::from_utf8(text).expect("the text is ASCII"))
}

/// The same, written to the front of a buffer: how many bytes.
///
/// # Errors
///
/// As [`compare`], and then [`Refusal::Room`] if the text is longer than the buffer,
/// which is left as it was.
pub fn compare_into(first: &[u8], second: &[u8], out: &mut [u8]) -> Result<usize, Refusal> {
    ffi::recording_compare(first, second, out).map(|words| answer::length(words[0]))
}

/// An entry of a recording.
#[derive(Clone, Copy, Debug, PartialEq, Eq, Hash)]
pub struct Entry<'a> {
    /// 0, 1, or 2 for unknown.
    pub direction: u8,
    /// When it was recorded.
    pub clock: u64,
    /// The datagram.
    pub body: &'a [u8],
}

/// The text of a comparison of a recording with itself: `entries 4096 4096` at most.
const EQUAL_ROOM: usize = 18;

/// The most entries of a recording.
pub const MAX_ENTRIES: usize = 4_096;

/// The bytes of a recording before its contents: the count of entries.
pub const COUNT_LEN: usize = 4;

/// The bytes of an entry besides its body.
pub const CONTENTS_LEN: usize = 4 + 2 + 1 + 8;

/// The entries of a recording, in order.
///
/// The library decides whether it is one: it compares the file with itself.
///
/// ```
/// // Clock 7, direction 0, one body of two bytes.
/// let file = *b"\0\0\0\x01\0\0\0\x13\0\x02\0\0\0\0\0\0\0\0\x07ab";
/// let entry = relay::recording::entries(&file)?.next().unwrap();
/// assert_eq!((entry.direction, entry.clock, entry.body), (0, 7, &b"ab"[..]));
/// # Ok::<(), relay::Refusal>(())
/// ```
///
/// # Errors
///
/// As [`compare`].
pub fn entries(file: &[u8]) -> Result<impl Iterator<Item = Entry<'_>>, Refusal> {
    compare_into(file, file, &mut [0; EQUAL_ROOM])?;
    let (count, contents) = file.split_at_checked(COUNT_LEN).ok_or(Refusal::Malformed)?;
    let contents = contents
        .chunks_exact(CONTENTS_LEN)
        .take(number(count) as usize);
    Ok(contents.map_while(|entry| {
        let (offset, rest) = entry.split_at(4);
        let (length, rest) = rest.split_at(2);
        let (direction, clock) = rest.split_first()?;
        let (from, length) = (number(offset) as usize, number(length) as usize);
        Some(Entry {
            direction: *direction,
            clock: number(clock),
            body: file.get(from..)?.get(..length)?,
        })
    }))
}

/// The recording of entries.
///
/// ```
/// use relay::recording::{self, Entry};
///
/// let entry = Entry { direction: 0, clock: 7, body: b"ab" };
/// let file = recording::write(&[entry])?;
/// assert_eq!(file, *b"\0\0\0\x01\0\0\0\x13\0\x02\0\0\0\0\0\0\0\0\x07ab");
/// # Ok::<(), relay::Refusal>(())
/// ```
///
/// # Errors
///
/// [`Refusal::Length`] if there are more than [`MAX_ENTRIES`], or one has more than
/// [`MAX_DATAGRAM`] bytes; [`Refusal::Argument`] if a direction is above 2.
pub fn write(entries: &[Entry]) -> Result<Vec<u8>, Refusal> {
    if entries.len() > MAX_ENTRIES {
        return Err(Refusal::Length);
    }
    let mut file = (entries.len() as u32).to_be_bytes().to_vec();
    let mut offset = COUNT_LEN + entries.len() * CONTENTS_LEN;
    for entry in entries {
        let length = entry.body.len();
        match (length, entry.direction) {
            (0..=MAX_DATAGRAM, 0..=2) => {}
            (0..=MAX_DATAGRAM, _) => return Err(Refusal::Argument),
            _ => return Err(Refusal::Length),
        }
        // Neither is cut: 4,096 bodies of 65,507 bytes end below 2^32.
        file.extend((offset as u32).to_be_bytes());
        file.extend((length as u16).to_be_bytes());
        file.push(entry.direction);
        file.extend(entry.clock.to_be_bytes());
        offset += length;
    }
    for entry in entries {
        file.extend(entry.body);
    }
    Ok(file)
}

/// The number of up to 8 bytes, big-endian.
fn number(bytes: &[u8]) -> u64 {
    bytes
        .iter()
        .fold(0, |number, byte| number << 8 | u64::from(*byte))
}

/// The most changes that mending can make: the count, and three of each entry.
const MAX_CHANGES: usize = 1 + 3 * MAX_ENTRIES;

/// The entry that a report has for the count.
const OF_COUNT: u64 = MAX_ENTRIES as u64;

/// A field of a recording's contents.
#[derive(Clone, Copy, Debug, PartialEq, Eq, Hash)]
pub enum Field {
    /// The count of entries.
    Count,
    /// Where the body of this entry begins in the file.
    Offset(usize),
    /// How long the body of this entry is.
    Length(usize),
    /// The direction of this entry.
    Direction(usize),
}

/// A field that mending changed.
#[derive(Clone, Copy, Debug, PartialEq, Eq, Hash)]
pub struct Change {
    /// Which one.
    pub field: Field,
    /// Its number before.
    pub old: u64,
    /// Its number now, which is another one.
    pub new: u64,
}

impl Change {
    /// The words that a change has in a report.
    pub const WORDS: usize = 4;

    /// # Panics
    ///
    /// If there is no such field: the library is then not the one that was proved.
    fn from_words(words: &[u64]) -> Self {
        let [entry, field, old, new] = words else {
            unreachable!("a change has four words");
        };
        let index = answer::length(*entry);
        let field = match (field, *entry) {
            (0, OF_COUNT) => Field::Count,
            (1, _) => Field::Offset(index),
            (2, _) => Field::Length(index),
            (3, _) => Field::Direction(index),
            other => unreachable!("librelay.a reported {other:?}, which is no field"),
        };
        Self {
            field,
            old: *old,
            new: *new,
        }
    }
}

impl fmt::Display for Change {
    fn fmt(&self, f: &mut fmt::Formatter<'_>) -> fmt::Result {
        match self.field {
            Field::Count => write!(f, "count")?,
            Field::Offset(entry) => write!(f, "entry {entry}: offset")?,
            Field::Length(entry) => write!(f, "entry {entry}: length")?,
            Field::Direction(entry) => write!(f, "entry {entry}: direction")?,
        }
        write!(f, " {} is now {}", self.old, self.new)
    }
}

/// Mends a damaged recording where it stands, and tells what it changed, in the order
/// of the file.
///
/// A count over 4,096 or past the file is lowered to the most that fits; a direction
/// above 2 becomes 2; a length is cut to 65,507 and to the end of the file; each offset
/// is set so that the bodies stand back to back. Clocks and bodies are not written. The
/// outcome is a well-formed recording, and mending it again changes nothing.
///
/// ```
/// // Clock 7, a direction of 9, one body of two bytes that begins elsewhere.
/// let mut file = *b"\0\0\0\x01\0\0\0\x14\0\x02\x09\0\0\0\0\0\0\0\x07ab";
/// let changes = relay::recording::mend(&mut file)?;
/// let told: Vec<String> = changes.iter().map(|change| change.to_string()).collect();
/// assert_eq!(told, ["entry 0: offset 20 is now 19", "entry 0: direction 9 is now 2"]);
/// assert!(relay::recording::mend(&mut file)?.is_empty());
/// # Ok::<(), relay::Refusal>(())
/// ```
///
/// # Errors
///
/// [`Refusal::Length`] if the file has under 4 bytes; it is left as it was.
pub fn mend(file: &mut [u8]) -> Result<Vec<Change>, Refusal> {
    let mut report = vec![0; MAX_CHANGES * Change::WORDS];
    let count = mend_into(file, &mut report)?;
    let words = report.chunks_exact(Change::WORDS);
    Ok(words.take(count).map(Change::from_words).collect())
}

/// The same, with the report as the library writes it, four words for each change:
/// how many there are.
///
/// # Errors
///
/// As [`mend`], and then [`Refusal::Room`] if the report is longer than the words lent.
/// Both are left as they were.
pub fn mend_into(file: &mut [u8], report: &mut [u64]) -> Result<usize, Refusal> {
    ffi::recording_mend(file, report).map(|words| answer::length(words[0]))
}
