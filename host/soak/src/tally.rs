//! What became of datagrams, counted.

use std::ops::AddAssign;

use crate::receiver::Answer;

/// The highest number of a refusal.
const HIGHEST: usize = 14;

#[derive(Clone, Copy, Debug, Default, PartialEq, Eq)]
pub struct Tally {
    pub accepted: u64,
    /// By number.
    refused: [u64; HIGHEST + 1],
}

impl Tally {
    pub fn add(&mut self, answer: &Answer) {
        match answer {
            Answer::Accepted { .. } => self.accepted += 1,
            Answer::Refused(number) => self.refused[*number as usize] += 1,
        }
    }

    /// How many were refused with a number.
    pub fn refused_with(&self, number: u64) -> u64 {
        self.refused[number as usize]
    }

    pub fn refused(&self) -> u64 {
        self.refused.iter().sum()
    }
}

impl AddAssign for Tally {
    fn add_assign(&mut self, other: Self) {
        self.accepted += other.accepted;
        for (own, other) in self.refused.iter_mut().zip(other.refused) {
            *own += other;
        }
    }
}
