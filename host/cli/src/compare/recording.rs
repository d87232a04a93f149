//! A recording that is compared.

use std::iter;

use relay::recording::{self, Entry};
use relay::Refusal;

use crate::opened::Opened;

/// What the bodies of a recording's entries are.
#[derive(Clone, Copy, Debug, PartialEq, Eq)]
pub enum Bodies {
    /// Datagrams as they are on the wire.
    Sealed,
    /// What the datagrams carry; of one that is refused, or of another series than that of its
    /// index in the other recording, the datagram.
    Opened,
}

pub struct Recording<'a> {
    /// The file's name, as it was given.
    pub name: String,
    pub entries: Vec<Entry<'a>>,
    pub bodies: Bodies,
}

impl<'a> Recording<'a> {
    pub fn new(name: String, file: &'a [u8]) -> Result<Self, Refusal> {
        Ok(Self {
            name,
            entries: recording::entries(file)?.collect(),
            bodies: Bodies::Sealed,
        })
    }

    /// The recording with what its datagrams carry in their place, where they are not refused and
    /// of the same series as those of the other one. All others differ, as no two sessions seal
    /// alike.
    pub fn opened(self, opened: &'a [Opened], same_series: &[bool]) -> Self {
        let is_same = same_series.iter().copied().chain(iter::repeat(true));
        let entries = self.entries.into_iter().zip(opened).zip(is_same);
        let entries = entries.map(|((entry, opened), is_same)| Entry {
            body: match &opened.payload {
                Ok(payload) if is_same => payload,
                _ => entry.body,
            },
            ..entry
        });
        Self {
            name: self.name,
            entries: entries.collect(),
            bodies: Bodies::Opened,
        }
    }

    /// The clock at which it begins; entries stand in their order, but a clock may go back.
    pub fn start(&self) -> u64 {
        let clocks = self.entries.iter().map(|entry| entry.clock);
        clocks.min().unwrap_or(0)
    }

    /// How many seconds it has, the last one whole.
    pub fn seconds(&self) -> f64 {
        let clocks = self.entries.iter().map(|entry| entry.clock);
        let last = clocks.max().unwrap_or(0);
        (last - self.start()) as f64 + 1.0
    }

    /// The file of it with its clocks counted from its start.
    fn on_axis(&self) -> Result<Vec<u8>, Refusal> {
        let start = self.start();
        let entries = self.entries.iter().map(|entry| Entry {
            clock: entry.clock - start,
            ..*entry
        });
        recording::write(&entries.collect::<Vec<_>>())
    }
}

/// The library's text of two recordings with the clocks of each counted from its start.
pub fn compare_on_axis([first, second]: &[Recording; 2]) -> Result<String, Refusal> {
    recording::compare(&first.on_axis()?, &second.on_axis()?)
}
