//! Plans of a long report.

use std::fmt;

use crate::answer;
use crate::ffi;
use crate::{Address, Method, Refusal};

/// What goes into one datagram of a report.
#[derive(Clone, Copy, Debug, PartialEq, Eq, Hash)]
pub struct Piece {
    /// How many bytes of the report: the payload's length.
    pub length: usize,
    /// How many bytes of padding.
    pub padding: usize,
}

/// A good plan for sending a long report in datagrams of a client, all to one address.
///
/// The pieces add up to the report's length, none is empty, no datagram is over the path
/// limit, and no other such plan has fewer datagrams. It is made in words that the caller
/// lends, two for each datagram, or found good in words from elsewhere. The [`Piece`]s come
/// in the order in which they are to be sent.
///
/// ```
/// use std::net::SocketAddr;
/// use relay::{Address, Key, Method, Plan, SealSession};
///
/// let report = [b'r'; 2_901];
/// let target = Address::from(SocketAddr::from(([192, 0, 2, 1], 53)));
/// let mut words = [0; 6];
/// let plan = Plan::make(Method::Aes128Gcm, &target, 1_500, report.len(), &mut words)?;
/// assert_eq!(plan.datagrams(), 3);
///
/// let key = Key::new(Method::Aes128Gcm, &[0x4b; 16])?;
/// let mut session = SealSession::client(0x1f2e_3d4c_5b6a_7988);
/// let mut rest = &report[..];
/// for piece in plan {
///     let (payload, behind) = rest.split_at(piece.length);
///     let mut datagram = [0; 1_500];
///     session.seal(&key, None, 1_000, &target, piece.padding, payload, &mut datagram)?;
///     rest = behind;
/// }
/// assert!(rest.is_empty());
/// # Ok::<(), relay::Refusal>(())
/// ```
#[derive(Clone, Copy, PartialEq, Eq)]
pub struct Plan<'a> {
    /// An even number of them.
    words: &'a [u64],
}

impl<'a> Plan<'a> {
    /// Plans a report of `length` bytes under a limit for each datagram, in the front of the
    /// lent words: full datagrams, the last one shorter, no padding.
    ///
    /// # Errors
    ///
    /// The first that applies: [`Argument`](Refusal::Argument) (a limit over 65,507, or with
    /// no room for one byte of a report that has any), [`Room`](Refusal::Room) (fewer words
    /// than two for each datagram). A refusal writes nothing.
    pub fn make(
        method: Method,
        address: &Address,
        limit: usize,
        length: usize,
        words: &'a mut [u64],
    ) -> Result<Self, Refusal> {
        let said = (limit as u64, length as u64);
        let answer = ffi::plan_make(method, address.as_bytes(), said.0, said.1, words)?;
        let words = &words[..2 * answer::length(answer[0])];
        Ok(Self { words })
    }

    /// The plan that the words are, if it is a good one.
    ///
    /// # Errors
    ///
    /// [`Argument`](Refusal::Argument), as in [`make`](Plan::make).
    pub fn check(
        method: Method,
        address: &Address,
        limit: usize,
        length: usize,
        words: &'a [u64],
    ) -> Result<Option<Self>, Refusal> {
        let said = (limit as u64, length as u64);
        let answer = ffi::plan_check(method, address.as_bytes(), said.0, said.1, words)?;
        Ok((answer[0] == 1).then_some(Self { words }))
    }

    /// How many datagrams it has.
    pub fn datagrams(&self) -> usize {
        self.words.len() / 2
    }

    /// The pieces in order.
    pub fn pieces(&self) -> Pieces<'a> {
        Pieces { words: self.words }
    }

    /// The plan as words, to be stored: length and padding of each piece.
    pub fn words(&self) -> &'a [u64] {
        self.words
    }
}

impl<'a> IntoIterator for Plan<'a> {
    type Item = Piece;
    type IntoIter = Pieces<'a>;

    fn into_iter(self) -> Pieces<'a> {
        self.pieces()
    }
}

impl fmt::Debug for Plan<'_> {
    fn fmt(&self, f: &mut fmt::Formatter<'_>) -> fmt::Result {
        f.debug_list().entries(self.pieces()).finish()
    }
}

/// The pieces of a [`Plan`], in order.
#[derive(Clone, Debug)]
pub struct Pieces<'a> {
    words: &'a [u64],
}

impl Iterator for Pieces<'_> {
    type Item = Piece;

    fn next(&mut self) -> Option<Piece> {
        let [length, padding, rest @ ..] = self.words else {
            return None;
        };
        self.words = rest;
        Some(Piece {
            length: answer::length(*length),
            padding: answer::length(*padding),
        })
    }

    fn size_hint(&self) -> (usize, Option<usize>) {
        let left = self.words.len() / 2;
        (left, Some(left))
    }
}

impl ExactSizeIterator for Pieces<'_> {}
