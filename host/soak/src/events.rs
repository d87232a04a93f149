//! What happens to datagrams, and how often.

/// Ranges of numbers, by weight.
pub type Ranges = [(u64, (u64, u64))];

/// What happens next.
#[derive(Clone, Copy)]
pub enum Event {
    /// A datagram arrives as it was sent.
    Fresh,
    /// Others of its session overtake it.
    Overtaken,
    /// It takes some seconds.
    Late,
    /// Somebody sends a copy of an older one.
    Replay,
    /// Somebody sends a changed copy of an older one, or of one that arrives next.
    Forgery,
    ForgeryFirst,
    /// The sender's clock is wrong, or just not wrong.
    WrongTime,
    /// Somebody sends back what a server sent.
    Mirror,
    /// The host lends too little room, and then enough.
    ShortRoom,
    /// Some are lost before it.
    Gap,
}

pub const EVENTS: [(u64, Event); 10] = [
    (8_430, Event::Fresh),
    (400, Event::Overtaken),
    (100, Event::Late),
    (450, Event::Replay),
    (200, Event::Forgery),
    (100, Event::ForgeryFirst),
    (100, Event::WrongTime),
    (50, Event::Mirror),
    (50, Event::ShortRoom),
    (120, Event::Gap),
];

/// Lengths of datagrams, from and to. About 400 bytes in the mean, so that an hour
/// is a minute's work.
pub const SIZES: &Ranges = &[
    (6_000, (64, 256)),
    (3_000, (257, 700)),
    (940, (701, 1_400)),
    (58, (9_000, 9_000)),
    (2, (65_507, 65_507)),
];

/// By how many others a datagram is overtaken: a few, up to the window's edge, and
/// past it.
pub const OVERTAKEN: &Ranges = &[
    (70, (1, 8)),
    (15, (9, 254)),
    (5, (255, 255)),
    (5, (256, 256)),
    (5, (257, 300)),
];

/// How many packet IDs are lost at once.
pub const LOST: &Ranges = &[(80, (1, 8)), (10, (254, 257)), (10, (300, 1_000))];
