//! Records datagrams as they come and go, in files that `compare` takes.

use std::fs::{self, OpenOptions};
use std::io::{self, Write};
use std::os::unix::fs::OpenOptionsExt;
use std::path::{Path, PathBuf};
use std::sync::atomic::{AtomicU64, Ordering};
use std::sync::mpsc::{sync_channel, Receiver, RecvTimeoutError, SyncSender};
use std::sync::Arc;
use std::time::{Duration, Instant};

use relay::recording::{self, CONTENTS_LEN, COUNT_LEN, MAX_COMPARED, MAX_ENTRIES};

use crate::failure::tell;
use crate::relaying::start;

/// How many datagrams wait to be recorded.
const WAITING: usize = 256;

/// How often what has come in is written to its file.
const EVERY: Duration = Duration::from_secs(1);

/// Who else reads a recording learns who sends when.
const OWNERS_ALONE: u32 = 0o600;

/// The digits of a file's number.
const DIGITS: usize = 6;

/// Which way a datagram went.
#[derive(Clone, Copy, Debug)]
pub enum Direction {
    FromSender = 0,
    ToSender = 1,
}

struct Entry {
    clock: u64,
    direction: Direction,
    body: Vec<u8>,
}

/// Hands datagrams to the thread that writes them. What it cannot keep up with is left out and
/// counted, so that a slow disk never holds the relay up.
pub struct Recorder {
    waiting: SyncSender<Entry>,
    left_out: Arc<AtomicU64>,
}

impl Recorder {
    /// Records in files of this name with numbers behind it, from the first free one on, the
    /// newest `most` of them if a number is given.
    pub fn start(name: PathBuf, most: Option<u64>) -> io::Result<Self> {
        let number = next_number(&name)?;
        let (waiting, taken) = sync_channel(WAITING);
        let left_out = Arc::new(AtomicU64::new(0));
        let files = Files {
            name,
            number,
            most,
            left_out: Arc::clone(&left_out),
        };
        start("recorder", move || files.write_all(&taken))?;
        Ok(Self { waiting, left_out })
    }

    pub fn record(&self, clock: u64, direction: Direction, datagram: &[u8]) {
        let body = datagram.to_vec();
        let entry = Entry {
            clock,
            direction,
            body,
        };
        if self.waiting.try_send(entry).is_err() {
            self.left_out.fetch_add(1, Ordering::Relaxed);
        }
    }

    pub fn left_out(&self) -> u64 {
        self.left_out.load(Ordering::Relaxed)
    }
}

/// The entries of the file that is being filled.
#[derive(Default)]
struct Recording {
    entries: Vec<Entry>,
    bytes: usize,
    is_written: bool,
}

impl Recording {
    /// How long its file is.
    fn length(&self) -> usize {
        COUNT_LEN + self.entries.len() * CONTENTS_LEN + self.bytes
    }

    fn has_room(&self, body: usize) -> bool {
        let length = self.length() + CONTENTS_LEN + body;
        self.entries.len() < MAX_ENTRIES && length <= MAX_COMPARED
    }

    fn push(&mut self, entry: Entry) {
        self.bytes += entry.body.len();
        self.entries.push(entry);
        self.is_written = false;
    }

    fn to_bytes(&self) -> io::Result<Vec<u8>> {
        let entries = self.entries.iter().map(|entry| recording::Entry {
            direction: entry.direction as u8,
            clock: entry.clock,
            body: &entry.body,
        });
        Ok(recording::write(&entries.collect::<Vec<_>>())?)
    }
}

struct Files {
    name: PathBuf,
    number: u64,
    most: Option<u64>,
    left_out: Arc<AtomicU64>,
}

impl Files {
    fn write_all(mut self, taken: &Receiver<Entry>) {
        let (mut recording, mut written) = (Recording::default(), Instant::now());
        loop {
            match taken.recv_timeout(EVERY.saturating_sub(written.elapsed())) {
                Ok(entry) => self.take(&mut recording, entry),
                Err(RecvTimeoutError::Timeout) => {}
                Err(RecvTimeoutError::Disconnected) => return self.write(&mut recording),
            }
            if written.elapsed() >= EVERY {
                self.write(&mut recording);
                written = Instant::now();
            }
        }
    }

    fn take(&mut self, recording: &mut Recording, entry: Entry) {
        if !recording.entries.is_empty() && !recording.has_room(entry.body.len()) {
            self.finish(recording);
        }
        recording.push(entry);
        if recording.length() > MAX_COMPARED {
            self.tell_long(recording);
            self.finish(recording);
        }
    }

    fn finish(&mut self, recording: &mut Recording) {
        self.write(recording);
        if !recording.is_written {
            let lost = recording.entries.len() as u64;
            self.left_out.fetch_add(lost, Ordering::Relaxed);
        }
        *recording = Recording::default();
        self.number += 1;
        let oldest = self.most.and_then(|most| self.number.checked_sub(most));
        if let Some(oldest) = oldest {
            // It may be gone already.
            let _ = fs::remove_file(numbered(&self.name, oldest));
        }
    }

    /// Writes the file as it is now, so that a reader finds a whole one.
    fn write(&self, recording: &mut Recording) {
        if recording.is_written || recording.entries.is_empty() {
            return;
        }
        let path = numbered(&self.name, self.number);
        let unfinished = path.with_extension("unfinished");
        let written = recording
            .to_bytes()
            .and_then(|bytes| write_file(&unfinished, &bytes))
            .and_then(|()| fs::rename(&unfinished, &path));
        match written {
            Ok(()) => recording.is_written = true,
            Err(error) => tell(format_args!(
                "bhajnolith: serve: {}: {error}",
                path.display()
            )),
        }
    }

    fn tell_long(&self, recording: &Recording) {
        let path = numbered(&self.name, self.number);
        let (path, length) = (path.display(), recording.bytes);
        let long = format!("a datagram of {length} bytes, too long for `compare`");
        tell(format_args!("bhajnolith: serve: {path}: {long}"));
    }
}

fn write_file(path: &Path, bytes: &[u8]) -> io::Result<()> {
    let mut options = OpenOptions::new();
    let options = options.write(true).create(true).truncate(true);
    options.mode(OWNERS_ALONE).open(path)?.write_all(bytes)
}

/// The file of a number.
fn numbered(name: &Path, number: u64) -> PathBuf {
    let mut path = name.as_os_str().to_os_string();
    path.push(format!(".{number:0DIGITS$}"));
    path.into()
}

/// The number behind those of the files that are there.
fn next_number(name: &Path) -> io::Result<u64> {
    let folder = match name.parent() {
        Some(folder) if !folder.as_os_str().is_empty() => folder,
        _ => Path::new("."),
    };
    let mut next = 1;
    for file in fs::read_dir(folder)? {
        let file = folder.join(file?.file_name());
        let is_one = file.file_stem() == name.file_name();
        let number = file
            .extension()
            .and_then(|text| text.to_str()?.parse::<u64>().ok());
        if let (true, Some(number)) = (is_one, number) {
            next = next.max(number.saturating_add(1));
        }
    }
    Ok(next)
}

#[cfg(test)]
mod tests {
    use std::fs;
    use std::path::PathBuf;
    use std::sync::Arc;

    use relay::recording;

    use super::{next_number, numbered, Direction, Entry, Files, Recording};
    use super::{CONTENTS_LEN, COUNT_LEN};

    /// A folder that goes with the test.
    struct Folder(PathBuf);

    impl Folder {
        fn new(name: &str) -> Self {
            let name = format!("bhajnolith-recorder-{}-{name}", std::process::id());
            let folder = std::env::temp_dir().join(name);
            fs::create_dir(&folder).unwrap();
            Self(folder)
        }
    }

    impl Drop for Folder {
        fn drop(&mut self) {
            let _ = fs::remove_dir_all(&self.0);
        }
    }

    fn entry(length: usize) -> Entry {
        Entry {
            clock: 7,
            direction: Direction::ToSender,
            body: vec![1; length],
        }
    }

    /// The lengths of the files that a list of datagrams makes, by their numbers.
    fn recorded(folder: &Folder, most: Option<u64>, lengths: &[usize]) -> Vec<u64> {
        let name = folder.0.join("morning");
        let (waiting, taken) = std::sync::mpsc::channel();
        for &length in lengths {
            waiting.send(entry(length)).unwrap();
        }
        drop(waiting);
        let number = next_number(&name).unwrap();
        let files = Files {
            name,
            number,
            most,
            left_out: Arc::default(),
        };
        files.write_all(&taken);
        let mut files: Vec<_> = fs::read_dir(&folder.0).unwrap().flatten().collect();
        files.sort_by_key(fs::DirEntry::file_name);
        files
            .iter()
            .map(|file| file.metadata().unwrap().len())
            .collect()
    }

    #[test]
    fn the_library_reads_what_is_recorded() {
        let mut recording = Recording::default();
        for length in [0, 1, 1_400] {
            recording.push(entry(length));
        }
        let file = recording.to_bytes().unwrap();
        assert_eq!(recording::compare(&file, &file).unwrap(), "entries 3 3\n");
    }

    #[test]
    fn files_are_as_long_as_compare_takes() {
        let folder = Folder::new("lengths");
        let longest = 32_768 - COUNT_LEN - CONTENTS_LEN;
        let lengths = [
            longest,
            longest + 1,
            65_507,
            10,
            32_768 - COUNT_LEN - 2 * CONTENTS_LEN - 10,
            1,
        ];
        let own = |length: usize| (COUNT_LEN + CONTENTS_LEN + length) as u64;
        let expected = [32_768, own(longest + 1), own(65_507), 32_768, own(1)];
        assert_eq!(recorded(&folder, None, &lengths), expected);
        // A restart goes on behind them.
        assert_eq!(recorded(&folder, None, &[2])[5..], [own(2)]);
        assert!(numbered(&folder.0.join("morning"), 6).exists());
    }

    #[test]
    fn the_newest_files_are_kept() {
        let folder = Folder::new("newest");
        let files = recorded(&folder, Some(2), &[32_000; 5]);
        assert_eq!(files.len(), 2);
        assert!(numbered(&folder.0.join("morning"), 5).exists());
    }
}
