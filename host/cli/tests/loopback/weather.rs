//! What happens to a datagram on its way.

use std::time::Duration;

use crate::random::Random;

/// What may happen, and how often it does.
pub type Weather = &'static [(u64, Fate)];

#[derive(Clone, Copy, Debug, PartialEq, Eq)]
pub enum Fate {
    Passes,
    IsLost,
    /// It comes behind what was sent later.
    IsOvertaken,
    /// Copies come behind it.
    IsRepeated,
    /// It comes so late that a busy session's window has moved past it.
    LeavesTheWindow,
    /// A copy comes when its time is no longer good.
    IsRepeatedTooLate,
    IsDamaged,
    /// A damaged copy comes before it.
    IsForged,
}

/// Nothing happens.
pub const FINE: Weather = &[(1, Fate::Passes)];

/// On the way to the box.
pub const BAD: Weather = &[
    (66, Fate::Passes),
    (4, Fate::IsLost),
    (10, Fate::IsOvertaken),
    (10, Fate::IsRepeated),
    (2, Fate::LeavesTheWindow),
    (2, Fate::IsRepeatedTooLate),
    (3, Fate::IsDamaged),
    (3, Fate::IsForged),
];

/// On the way back, where all that is not lost is to arrive.
pub const BAD_BACK: Weather = &[
    (73, Fate::Passes),
    (4, Fate::IsLost),
    (10, Fate::IsOvertaken),
    (7, Fate::IsRepeated),
    (3, Fate::IsDamaged),
    (3, Fate::IsForged),
];

/// A copy that arrives.
#[derive(Clone, Copy, Debug, PartialEq, Eq)]
pub struct Copy {
    pub delay: Duration,
    pub is_damaged: bool,
    /// Its time is no longer good when it arrives.
    pub is_too_late: bool,
}

impl Copy {
    pub const AT_ONCE: Self = Self {
        delay: Duration::ZERO,
        is_damaged: false,
        is_too_late: false,
    };
    const DAMAGED: Self = Self {
        is_damaged: true,
        ..Self::AT_ONCE
    };

    /// A copy that comes after so many milliseconds, of a range.
    fn after(random: &mut Random, from: u64, to: u64) -> Self {
        let delay = Duration::from_millis(random.within(from..=to));
        Self {
            delay,
            // Times are good for 30 s. No delay is near it.
            is_too_late: delay > Duration::from_secs(30),
            ..Self::AT_ONCE
        }
    }
}

/// The copies of one datagram that arrive.
pub fn copies(weather: Weather, random: &mut Random) -> Vec<Copy> {
    match random.weighted(weather) {
        Fate::Passes => vec![Copy::AT_ONCE],
        Fate::IsLost => vec![],
        Fate::IsOvertaken => vec![Copy::after(random, 5, 2_000)],
        Fate::IsRepeated => {
            let repeats = random.within(1..=3);
            let mut copies = vec![Copy::AT_ONCE];
            copies.extend((0..repeats).map(|_| Copy::after(random, 0, 5_000)));
            copies
        }
        Fate::LeavesTheWindow => vec![Copy::after(random, 7_000, 12_000)],
        Fate::IsRepeatedTooLate => vec![Copy::AT_ONCE, Copy::after(random, 33_000, 40_000)],
        Fate::IsDamaged => vec![Copy::DAMAGED],
        Fate::IsForged => vec![Copy::DAMAGED, Copy::AT_ONCE],
    }
}

/// Changes a bit, cuts the end off, or puts bytes behind it.
pub fn damaged(datagram: &[u8], random: &mut Random) -> Vec<u8> {
    let mut bytes = datagram.to_vec();
    match random.below(4) {
        0 => bytes.truncate(random.place(datagram.len())),
        1 if datagram.len() < 60_000 => {
            let length = 1 + random.place(20);
            bytes.extend(random.bytes(length));
        }
        _ => bytes[random.place(datagram.len())] ^= 1 << random.below(8),
    }
    bytes
}
