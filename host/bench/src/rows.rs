//! The rows of the table: what is compared and timed.
//!
//! A new primitive is one more [`Kind`] with a function that makes its rows, a new
//! library one more [`Library`] with its column and its place in the macro that makes
//! a row's contestants.

/// What a function makes of each library that has AES, wrapped in a type. A macro, as those
/// below are, because a function cannot be given one that is generic.
macro_rules! of_aes {
    ($with:ident, $wrap:ident, $arguments:tt) => {{
        use crate::bearssl::{BearSslWith, BearSslWithout};
        use crate::gcrypt::Gcrypt;
        use crate::mbedtls::MbedTls;
        use crate::nettle::Nettle;
        use crate::openssl::OpenSsl;
        let mut contestants = vec![
            $with::<$wrap<OpenSsl>> $arguments,
            $with::<$wrap<Nettle>> $arguments,
            $with::<$wrap<BearSslWithout>> $arguments,
            $with::<$wrap<Gcrypt>> $arguments,
            $with::<$wrap<MbedTls>> $arguments,
        ];
        if <BearSslWith as crate::ciphers::Ciphers>::are_there() {
            contestants.push($with::<$wrap<BearSslWith>> $arguments);
        }
        contestants
    }};
}

/// The same of each that has ChaCha with so many rounds.
macro_rules! of_chacha {
    ($rounds:expr, $with:ident, $wrap:ident, $arguments:tt) => {{
        use crate::bearssl::BearSslWithout;
        use crate::nettle::Nettle;
        use crate::openssl::OpenSsl;
        use crate::plain::Plain;
        use crate::sodium::Sodium;
        match $rounds {
            20 => vec![
                $with::<$wrap<OpenSsl>> $arguments,
                $with::<$wrap<Nettle>> $arguments,
                $with::<$wrap<BearSslWithout>> $arguments,
                $with::<$wrap<Sodium>> $arguments,
            ],
            12 => vec![$with::<$wrap<Plain<12>>> $arguments],
            8 => vec![$with::<$wrap<Plain<8>>> $arguments],
            rounds => panic!("no method has {rounds} rounds"),
        }
    }};
}

/// Ours, and what a function makes of each other suite with a cipher.
macro_rules! contestants {
    ($cipher:expr, $ours:expr, $with:ident $arguments:tt) => {{
        use crate::kinds::Cipher;
        use crate::suites::{WithAes, WithChaCha};
        let others = match $cipher {
            Cipher::AesGcm => of_aes!($with, WithAes, $arguments),
            Cipher::ChaCha { rounds } => of_chacha!(rounds, $with, WithChaCha, $arguments),
        };
        ours_and($ours, others)
    }};
}

mod bodies;
mod datagrams;
mod disorder;
mod primitives;
mod sip004;
mod streams;

use crate::kinds::Kind;

/// Whose code a contestant runs.
#[derive(Clone, Copy, PartialEq, Eq)]
pub enum Library {
    Ours,
    /// With plain Rust around it where it does only a part of the work.
    OpenSsl,
    /// Likewise.
    Nettle,
    /// Likewise, and without processor instructions: BearSSL leaves that to its caller.
    BearSslWithout,
    /// With them, where the processor has them.
    BearSslWith,
    /// Without them: its hardware features are off.
    Gcrypt,
    /// With them: mbedTLS has no switch.
    MbedTls,
    /// Likewise.
    Sodium,
    /// This program's own, for what the others have not.
    Plain,
}

/// The work of one call, from the row's input to its buffer, or in the buffer alone.
pub type Work = Box<dyn Fn(&[u8], &mut [u8])>;

pub struct Contestant {
    pub library: Library,
    pub work: Work,
}

impl Contestant {
    fn new(library: Library, work: impl Fn(&[u8], &mut [u8]) + 'static) -> Self {
        let work = Box::new(work);
        Self { library, work }
    }
}

/// A library's ciphers as they are.
type Bare<C> = C;

fn ours_and(ours: impl Fn(&[u8], &mut [u8]) + 'static, others: Vec<Contestant>) -> Vec<Contestant> {
    let ours = Contestant::new(Library::Ours, ours);
    [ours].into_iter().chain(others).collect()
}

/// The same work by several libraries: from equal buffers all leave equal ones.
pub struct Row {
    pub kind: Kind,
    /// The bytes that are worked on, by which the speed is counted.
    pub size: usize,
    /// Empty where the work is done in place.
    pub input: Vec<u8>,
    /// The length of the buffer.
    pub buffer: usize,
    /// What is special about a row that is compared only, and not timed.
    pub special: Option<&'static str>,
    /// At most one for each library; a library without one has an empty cell.
    pub contestants: Vec<Contestant>,
}

impl Row {
    /// The place of a library's contestant.
    pub fn contestant(&self, library: Library) -> Option<usize> {
        self.contestants
            .iter()
            .position(|contestant| contestant.library == library)
    }

    /// Its name among all rows.
    pub fn name(&self) -> String {
        let (section, name) = (self.kind.section().title(), self.kind.name());
        let special = self.special.unwrap_or("timed");
        format!("{section}: {name}, {} bytes, {special}", self.size)
    }

    fn compared_only(mut self, special: &'static str) -> Self {
        self.special = Some(special);
        self
    }
}

/// Every row, in the same order in every process.
pub fn all() -> Vec<Row> {
    let mut rows = datagrams::rows();
    rows.extend(disorder::rows());
    rows.extend(sip004::rows());
    rows.extend(bodies::rows());
    rows.extend(streams::rows());
    rows.extend(primitives::rows());
    rows
}

const KEY: [u8; 32] = *b"thirty-two bytes to serve as key";
const NONCE: [u8; 12] = *b"twelve bytes";
const SALT: [u8; 32] = *b"thirty-two bytes to do for salt!";

/// Fills a buffer before its work. The period is odd, so that neighbouring blocks
/// differ.
pub fn fill(buffer: &mut [u8]) {
    for (index, byte) in buffer.iter_mut().enumerate() {
        *byte = (index % 251) as u8;
    }
}

/// Differs from a filled buffer in every byte: it shows whether a text was written.
fn text(size: usize) -> Vec<u8> {
    let mut text = vec![0; size];
    fill(&mut text);
    text.iter().map(|byte| !byte).collect()
}

/// The sealed message with its last bit wrong, which is one of the tag.
fn forged(mut sealed: Vec<u8>) -> Vec<u8> {
    *sealed.last_mut().expect("a tag is not empty") ^= 1;
    sealed
}

#[cfg(test)]
mod tests {
    use std::collections::HashSet;

    use super::{all, Library};
    use crate::bearssl::BearSslWith;
    use crate::ciphers::Ciphers;
    use crate::kinds::Others;

    #[test]
    fn the_other_libraries_stand_in_the_same_rows() {
        for row in all() {
            let others = row.kind.section().others();
            let is_aes = others == Others::Aes && BearSslWith::are_there();
            for (library, stands) in [
                (Library::Ours, true),
                (Library::OpenSsl, others != Others::Plain),
                (Library::Nettle, others != Others::Plain),
                (Library::BearSslWithout, others != Others::Plain),
                (Library::BearSslWith, is_aes),
                (Library::Gcrypt, others == Others::Aes),
                (Library::MbedTls, others == Others::Aes),
                (Library::Sodium, others == Others::ChaCha20),
                (Library::Plain, others == Others::Plain),
            ] {
                assert_eq!(row.contestant(library).is_some(), stands, "{}", row.name());
            }
        }
    }

    #[test]
    fn every_row_has_a_name_of_its_own() {
        let rows = all();
        let names: HashSet<String> = rows.iter().map(|row| row.name()).collect();
        assert_eq!(names.len(), rows.len());
    }
}
