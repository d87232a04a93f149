//! What a box keeps over a restart: the words of its session table and of its salt pool.
//!
//! They are written behind each acceptance and before anything of it is handed on, each time
//! over the older of two copies. A program that is killed while it writes has handed nothing
//! on, and finds the other copy.

use std::fs::{File, OpenOptions};
use std::io;
use std::os::unix::fs::{FileExt, OpenOptionsExt};
use std::path::Path;

use relay::settings::Method;
use relay::{Clock, Method as Sip022, Pool, Table};

use crate::failure::{About, Outcome};

/// "bhajkp01": what a copy begins with.
const MAGIC: u64 = u64::from_be_bytes(*b"bhajkp01");

/// Words of a copy besides those that are kept: magic, method, turn, clock, the clock before
/// which nothing may be accepted, and checksum.
const AROUND: usize = 6;

/// Where the pool's copies begin in the file, behind both copies of the table.
const POOL_BASE: u64 = 2 * copy_bytes(Table::WORDS);

/// Who else reads the file learns who sends, but no key.
const OWNERS_ALONE: u32 = 0o600;

/// How long a datagram or a salt that was accepted could be accepted again by a box that has
/// forgotten it: its timestamp is valid for 30 seconds either side.
const FORGOTTEN: u64 = 61;

const fn copy_bytes(words: usize) -> u64 {
    (AROUND + words) as u64 * 8
}

/// What a box starts with.
pub struct Start {
    pub table: Table,
    pub pool: Pool,
    pub table_keeper: Option<Keeper>,
    pub pool_keeper: Option<Keeper>,
    /// Before this clock nothing may be accepted.
    pub from: u64,
}

impl Start {
    /// What is kept in a file, if there is one to keep it in.
    pub fn new(path: Option<&Path>, method: Sip022, table: Table, clock: &Clock) -> Outcome<Self> {
        match path {
            Some(path) => Self::kept(path, method, table, clock).about(path.display()),
            None => Ok(Self::fresh(method, table)),
        }
    }

    /// A new table and pool, which nothing keeps.
    fn fresh(method: Sip022, table: Table) -> Self {
        Self {
            table,
            pool: Pool::new(method),
            table_keeper: None,
            pool_keeper: None,
            from: 0,
        }
    }

    /// The table and pool of a file, if it has both, whole and of this method and retention. If
    /// not, they are new, and what may have been accepted before has to grow old first.
    fn kept(path: &Path, method: Sip022, table: Table, clock: &Clock) -> io::Result<Self> {
        let mut options = OpenOptions::new();
        let options = options.read(true).write(true).create(true).truncate(false);
        let file = options.mode(OWNERS_ALONE).open(path)?;
        let mut tables = Keeper::new(file.try_clone()?, 0, method);
        let mut pools = Keeper::new(file, POOL_BASE, method);
        let words = tables.load(clock)?.zip(pools.load(clock)?);
        let is_same = |words: &[u64; Table::WORDS]| words[0] == table.retention();
        let (table, pool, from) = match words {
            Some((words, salts)) if is_same(&words) => (
                Table::from_words(&words),
                Pool::from_words(&salts),
                tables.from.max(pools.from),
            ),
            _ => (
                table,
                Pool::new(method),
                clock.now().saturating_add(FORGOTTEN),
            ),
        };
        // One that is killed before that clock has to wait for it when it starts again.
        (tables.from, pools.from) = (from, from);
        tables.keep(clock.now(), table.words())?;
        pools.keep(clock.now(), pool.words())?;
        Ok(Self {
            table,
            pool,
            table_keeper: Some(tables),
            pool_keeper: Some(pools),
            from,
        })
    }
}

/// One of two copies, as it is read.
struct Copy<const WORDS: usize> {
    turn: u64,
    clock: u64,
    from: u64,
    words: Box<[u64; WORDS]>,
}

/// Two copies of so many words in a file.
pub struct Keeper {
    file: File,
    base: u64,
    method: u64,
    /// How often was written.
    turn: u64,
    /// Before this clock nothing may be accepted.
    from: u64,
    /// The bytes of a copy, as they are written.
    bytes: Vec<u8>,
}

impl Keeper {
    fn new(file: File, base: u64, method: Sip022) -> Self {
        Self {
            file,
            base,
            method: Method::from(method).number(),
            turn: 0,
            from: 0,
            bytes: Vec::with_capacity(copy_bytes(Pool::WORDS) as usize),
        }
    }

    /// Writes the words over the older copy.
    pub fn keep<const WORDS: usize>(&mut self, clock: u64, words: &[u64; WORDS]) -> io::Result<()> {
        self.turn += 1;
        let front = [MAGIC, self.method, self.turn, clock, self.from];
        let sum = checksum(front.iter().chain(words));
        self.bytes.clear();
        for word in front.iter().chain(words).chain([&sum]) {
            self.bytes.extend(word.to_be_bytes());
        }
        self.file
            .write_all_at(&self.bytes, self.place(self.turn, WORDS))
    }

    /// The words of the newer copy that is whole. The clock does not go back behind it.
    fn load<const WORDS: usize>(&mut self, clock: &Clock) -> io::Result<Option<Box<[u64; WORDS]>>> {
        let mut newest = None;
        for turn in [0, 1] {
            if let Some(copy) = self.read(turn)? {
                if copy.turn > self.turn {
                    (self.turn, self.from) = (copy.turn, copy.from);
                    newest = Some(copy.words);
                    clock.hold(copy.clock);
                }
            }
        }
        Ok(newest)
    }

    /// A copy, if it is whole.
    fn read<const WORDS: usize>(&self, turn: u64) -> io::Result<Option<Copy<WORDS>>> {
        let mut bytes = vec![0; copy_bytes(WORDS) as usize];
        match self.file.read_exact_at(&mut bytes, self.place(turn, WORDS)) {
            Err(error) if error.kind() == io::ErrorKind::UnexpectedEof => return Ok(None),
            read => read?,
        }
        let all: Vec<u64> = bytes.chunks_exact(8).map(word_of).collect();
        let [MAGIC, method, turn, clock, from, words @ .., sum] = &all[..] else {
            return Ok(None);
        };
        if *method != self.method || *sum != checksum(&all[..all.len() - 1]) {
            return Ok(None);
        }
        let words = <Box<[u64; WORDS]>>::try_from(Box::<[u64]>::from(words));
        Ok(words.ok().map(|words| Copy {
            turn: *turn,
            clock: *clock,
            from: *from,
            words,
        }))
    }

    fn place(&self, turn: u64, words: usize) -> u64 {
        self.base + turn % 2 * copy_bytes(words)
    }
}

fn word_of(bytes: &[u8]) -> u64 {
    bytes
        .iter()
        .fold(0, |word, byte| word << 8 | u64::from(*byte))
}

/// Tells a copy that was not written to its end (FNV-1a over words). It is no protection
/// against somebody who may write the file.
fn checksum<'a>(words: impl IntoIterator<Item = &'a u64>) -> u64 {
    let step = |sum: u64, word: &u64| (sum ^ word).wrapping_mul(0x0100_0000_01b3);
    words.into_iter().fold(0xcbf2_9ce4_8422_2325, step)
}

#[cfg(test)]
mod tests {
    use std::fs;
    use std::path::PathBuf;

    use relay::{Clock, Method, Table};

    use super::{copy_bytes, Start, FORGOTTEN};

    /// A file that goes with the test.
    struct Kept(PathBuf);

    impl Kept {
        fn new(name: &str) -> Self {
            let name = format!("bhajnolith-state-{}-{name}", std::process::id());
            Self(std::env::temp_dir().join(name))
        }

        fn start(&self, retention: u64, method: Method) -> Start {
            let table = Table::new(retention).unwrap();
            Start::kept(&self.0, method, table, &Clock::new()).unwrap()
        }

        /// Damages a byte.
        fn damage(&self, place: u64) {
            let mut bytes = fs::read(&self.0).unwrap();
            bytes[place as usize] ^= 1;
            fs::write(&self.0, bytes).unwrap();
        }
    }

    impl Drop for Kept {
        fn drop(&mut self) {
            let _ = fs::remove_file(&self.0);
        }
    }

    /// Words that a table may have: a session of an ID.
    fn words(id: u64) -> [u64; Table::WORDS] {
        let mut words = [0; Table::WORDS];
        (words[0], words[1], words[2]) = (60, 1, id);
        words
    }

    #[test]
    fn the_newest_whole_copy_is_found() {
        let file = Kept::new("newest");
        let first = file.start(60, Method::Aes128Gcm);
        let from = first.from;
        assert!(from >= FORGOTTEN);
        let mut keeper = first.table_keeper.unwrap();
        for id in 1..=3 {
            keeper.keep(1_000, &words(id)).unwrap();
        }
        let again = file.start(60, Method::Aes128Gcm);
        assert_eq!((again.from, again.table.words()), (from, &words(3)));
        // The start itself wrote a copy. What was not written to its end is not taken.
        file.damage(copy_bytes(Table::WORDS) + 100);
        let before = file.start(60, Method::Aes128Gcm);
        assert_eq!((before.from, before.table.words()), (from, &words(3)));
        file.damage(100);
        file.damage(copy_bytes(Table::WORDS) + 100);
        let none = file.start(60, Method::Aes128Gcm);
        assert!(none.from >= FORGOTTEN && none.table.words()[1] == 0);
    }

    #[test]
    fn other_settings_begin_anew() {
        let file = Kept::new("settings");
        let start = |retention, method, clock| {
            let table = Table::new(retention).unwrap();
            Start::kept(&file.0, method, table, &clock).unwrap().from
        };
        let at = |offset| Clock::with_offset(offset);
        let from = start(60, Method::Aes128Gcm, at(0));
        // Until then it has to wait, though it is started again.
        assert_eq!(start(60, Method::Aes128Gcm, at(30)), from);
        assert!(start(61, Method::Aes128Gcm, at(60)) >= from + 60);
        assert!(start(61, Method::Aes256Gcm, at(120)) >= from + 120);
    }

    #[test]
    fn the_clock_is_held() {
        let file = Kept::new("clock");
        let mut keeper = file.start(60, Method::Aes128Gcm).table_keeper.unwrap();
        let later = Clock::new().now() + 500;
        keeper.keep(later, &words(1)).unwrap();
        let clock = Clock::new();
        let table = Table::new(60).unwrap();
        Start::kept(&file.0, Method::Aes128Gcm, table, &clock).unwrap();
        assert_eq!(clock.now(), later);
    }
}
