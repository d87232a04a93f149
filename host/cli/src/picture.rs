//! Two recordings on one time axis, as SVG: a lane for each pair of sessions and each direction,
//! the first recording above its line and the second below, what differs marked.

mod axis;
mod label;
mod lanes;
mod legend;
mod marks;
mod page;
mod svg;

use crate::compare::{Comparison, Recording};
use crate::opened::Opened;

use lanes::Lanes;

/// The picture's text. What the datagrams are, where a key opened them, tells sessions apart.
///
/// Two days differ in every clock, so what the picture marks is what differs with clocks counted
/// from each recording's start: `on_axis`. `differ` entries are told to differ beside it.
pub fn draw(
    recordings: &[Recording; 2],
    on_axis: &Comparison,
    differ: usize,
    opened: Option<&[Vec<Opened>; 2]>,
) -> String {
    let lanes = Lanes::new(recordings, opened);
    page::page(recordings, on_axis, differ, &lanes)
}
