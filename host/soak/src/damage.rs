//! Forged copies of datagrams.

use std::rc::Rc;

use crate::datagram::{Datagram, Origin};
use crate::random::Random;

#[derive(Clone, Copy)]
enum Damage {
    /// One bit anywhere, in the separate header or the nonce, or in the tag.
    Bit,
    FirstBit,
    TagBit,
    /// Bytes are cut off or added at the end.
    Cut,
    Longer,
    /// Longer than any datagram may be.
    TooLong,
    /// Random bytes of the same length.
    Random,
}

const MIX: [(u64, Damage); 7] = [
    (50, Damage::Bit),
    (10, Damage::FirstBit),
    (10, Damage::TagBit),
    (15, Damage::Cut),
    (9, Damage::Longer),
    (1, Damage::TooLong),
    (5, Damage::Random),
];

/// Length of the separate header, of a tag, and of a nonce's first part.
const BLOCK: usize = 16;

/// A copy of a whole datagram that differs from it.
pub fn forge(original: &Datagram, random: &mut Random) -> Rc<Datagram> {
    let mut bytes = original.bytes.clone();
    let length = bytes.len();
    match random.weighted(&MIX) {
        Damage::Bit => flip(&mut bytes, random),
        Damage::FirstBit => flip(&mut bytes[..BLOCK], random),
        Damage::TagBit => flip(&mut bytes[length - BLOCK..], random),
        Damage::Cut => bytes.truncate(random.place(length)),
        Damage::Longer => {
            let more = 1 + random.place(BLOCK);
            bytes.extend(random.bytes(more));
        }
        Damage::TooLong => bytes.resize(65_508 + random.place(100), 0),
        Damage::Random => bytes = random.bytes(length),
    }
    Rc::new(Datagram {
        bytes,
        origin: Origin {
            is_damaged: true,
            ..original.origin.clone()
        },
    })
}

fn flip(bytes: &mut [u8], random: &mut Random) {
    let place = random.place(bytes.len());
    bytes[place] ^= 1 << random.below(8);
}
