//! The whole picture: title, legend, lanes and axis.

use super::axis::Axis;
use super::label::{clipped, counted, grouped, utc};
use super::lanes::{Lane, Lanes, Place};
use super::legend;
use super::marks::{Mark, Side, RADIUS};
use super::svg::Svg;
use crate::compare::{Bodies, Comparison, Kind, Recording};

const WIDTH: f64 = 1_200.0;
const MARGIN: f64 = 24.0;

/// Where the lanes' labels end and their entries begin.
const LABELS: f64 = 236.0;

/// The longest names in title and lines, in letters.
const LONGEST_TITLE: usize = 48;
const LONGEST_NAME: usize = 90;

/// Half the height of a lane, by how many there are.
const LEAST_HALF: f64 = 34.0;
const MOST_HALF: f64 = 64.0;
const LANES_HEIGHT: f64 = 560.0;

/// Below a lane's line, a label of the first recording and one of the second.
const SIDES: [f64; 2] = [-5.0, 12.0];

/// A bar's width, of the room that it has, and in pixels.
const BAR_PART: f64 = 0.62;
const LEAST_BAR: f64 = 1.6;
const MOST_BAR: f64 = 9.0;

/// Around all bars of a side: room for a shape.
const SHAPE_ROOM: f64 = 2.0 * RADIUS + 5.0;

/// The shortest bar, of an entry without bytes.
const LEAST_HEIGHT: f64 = 2.0;

pub fn page(
    recordings: &[Recording; 2],
    comparison: &Comparison,
    differ: usize,
    lanes: &Lanes,
) -> String {
    let mut svg = Svg::new();
    let found = found(recordings, comparison, differ);
    let top = head(&mut svg, recordings, &found);
    let width = WIDTH - 2.0 * MARGIN;
    let lines = legend::draw(&mut svg, (MARGIN, top), width, comparison, lanes);
    let top = top + lines as f64 * legend::LINE;
    let page = Page {
        axis: Axis::new(recordings, LABELS, WIDTH - MARGIN),
        half: (LANES_HEIGHT / 2.0 / lanes.lanes.len().max(1) as f64).clamp(LEAST_HALF, MOST_HALF),
        top,
        recordings,
        comparison,
        lanes,
    };
    page.lanes(&mut svg);
    let bottom = page.axis(&mut svg);
    svg.finish(WIDTH, bottom, &title(recordings))
}

fn title(recordings: &[Recording; 2]) -> String {
    let [first, second] = recordings.each_ref().map(|recording| {
        let name = recording.name.rsplit('/').next().unwrap_or_default();
        clipped(name, LONGEST_TITLE)
    });
    format!("{first} and {second}")
}

/// How many entries differ, on the axis and with their clocks as they are.
fn found(recordings: &[Recording; 2], on_axis: &Comparison, differ: usize) -> String {
    let most = recordings.iter().map(|recording| recording.entries.len());
    let most = counted(most.max().unwrap_or(0), "entry", "entries");
    let [on_axis, differ] = [on_axis.differences.len(), differ];
    let first = match on_axis {
        0 => "no entry differs".to_string(),
        _ => format!("{} of {most} differ", grouped(on_axis as u64)),
    };
    match on_axis == differ {
        true => first,
        false => format!(
            "{first} on this axis, {} by their own clocks",
            grouped(differ as u64)
        ),
    }
}

/// Title and counts: where the legend begins.
fn head(svg: &mut Svg, recordings: &[Recording; 2], found: &str) -> f64 {
    svg.text("title", (MARGIN, 36.0), &title(recordings));
    for ((recording, side), y) in recordings.iter().zip(Side::ALL).zip([60.0, 78.0]) {
        let count = counted(recording.entries.len(), "entry", "entries");
        let bytes = recording
            .entries
            .iter()
            .map(|entry| entry.body.len() as u64);
        let bytes = match recording.bodies {
            Bodies::Sealed => format!("{} bytes", grouped(bytes.sum())),
            Bodies::Opened => format!("{} bytes opened", grouped(bytes.sum())),
        };
        let (name, start) = (
            clipped(&recording.name, LONGEST_NAME),
            utc(recording.start()),
        );
        let begins = match recording.entries.is_empty() {
            true => String::new(),
            false => format!(", from {start}"),
        };
        let words = format!("{}: {name}, {count}, {bytes}{begins}", side.name());
        svg.text("grey", (MARGIN, y), &words);
    }
    svg.text("plain", (MARGIN, 100.0), found);
    126.0
}

struct Page<'a> {
    axis: Axis,
    /// Half the height of a lane.
    half: f64,
    /// Where the lanes begin.
    top: f64,
    recordings: &'a [Recording<'a>; 2],
    comparison: &'a Comparison,
    lanes: &'a Lanes,
}

impl Page<'_> {
    /// The height of a lane's line.
    fn line(&self, lane: usize) -> f64 {
        self.top + (2 * lane + 1) as f64 * self.half
    }

    fn bottom(&self) -> f64 {
        self.top + 2.0 * self.half * self.lanes.lanes.len().max(1) as f64
    }

    fn lanes(&self, svg: &mut Svg) {
        for (index, lane) in self.lanes.lanes.iter().enumerate() {
            let y = self.line(index);
            if index % 2 == 0 {
                let (corner, width) = ((MARGIN, y - self.half), WIDTH - 2.0 * MARGIN);
                svg.rectangle("band", corner, width, 2.0 * self.half);
            }
            self.label(svg, index, lane);
        }
        if self.lanes.lanes.is_empty() {
            svg.text("grey", (LABELS, self.top + self.half), "no entries");
        }
        for (x, _) in self.axis.ticks() {
            svg.line("grid", (x, self.top), (x, self.bottom()));
        }
        for index in 0..self.lanes.lanes.len() {
            let y = self.line(index);
            svg.line("line", (LABELS, y), (WIDTH - MARGIN, y));
        }
        self.marks(svg);
    }

    /// A lane's name, and how many entries of either recording it has.
    fn label(&self, svg: &mut Svg, index: usize, lane: &Lane) {
        let (x, y) = (MARGIN + 8.0, self.line(index));
        let [first, second] = lane.owners();
        let (above, names) = match first == second {
            true => (-12.0, vec![(4.0, first)]),
            false => (-21.0, vec![(SIDES[0], first), (SIDES[1], second)]),
        };
        svg.text("grey", (x, y + above), lane.direction());
        for (below, name) in names {
            svg.text("id", (x, y + below), &name);
        }
        for ((places, side), below) in self.lanes.places.iter().zip(Side::ALL).zip(SIDES) {
            let count = places.iter().filter(|place| place.lane == index).count();
            let words = format!("{} {}", side.name(), grouped(count as u64));
            svg.text("small grey end", (LABELS - 8.0, y + below), &words);
        }
    }

    /// Bars and shapes, and then the numbers of refusals, which stand above all.
    fn marks(&self, svg: &mut Svg) {
        let longest = self.longest().max(1) as f64;
        let most = self.half - SHAPE_ROOM - LEAST_HEIGHT;
        let places = self
            .recordings
            .each_ref()
            .map(|recording| self.axis.places(recording));
        let width = bar_width(&places, &self.lanes.places);
        let mut marks = Vec::new();
        for (side, which) in Side::ALL.into_iter().enumerate() {
            for (index, entry) in self.recordings[side].entries.iter().enumerate() {
                let place = self.lanes.places[side][index];
                let mark = Mark {
                    side: which,
                    place: (places[side][index], self.line(place.lane)),
                    width,
                    height: LEAST_HEIGHT + most * entry.body.len() as f64 / longest,
                    kind: self.comparison.of(index),
                    refusal: place.refusal,
                };
                svg.open(&self.told(side, index));
                mark.draw(svg);
                svg.close();
                marks.push(mark);
            }
        }
        marks.iter().for_each(|mark| mark.draw_number(svg));
    }

    fn longest(&self) -> usize {
        let entries = self
            .recordings
            .iter()
            .flat_map(|recording| &recording.entries);
        entries.map(|entry| entry.body.len()).max().unwrap_or(0)
    }

    /// What an entry is, in words.
    fn told(&self, side: usize, index: usize) -> String {
        let (recording, name) = (&self.recordings[side], Side::ALL[side].name());
        let entry = &recording.entries[index];
        let (length, clock) = (entry.body.len(), entry.clock);
        let later = clock - recording.start();
        let mut words = format!("{name} {index}: {length} bytes, clock {clock} (+{later} s)");
        if let Some(number) = self.lanes.places[side][index].refusal {
            words += &format!(", refused {number}");
        }
        match self.comparison.of(index) {
            None => {}
            Some(Kind::Length(first, second)) => words += &format!(", length {first} and {second}"),
            Some(Kind::Meta) => words += ", direction or clock differs",
            Some(Kind::Byte(place)) => words += &format!(", differs from byte {place} on"),
            Some(Kind::FirstOnly | Kind::SecondOnly) => words += ", here only",
        }
        words
    }

    /// The axis and what it means: where the picture ends.
    fn axis(&self, svg: &mut Svg) -> f64 {
        let y = self.bottom();
        svg.line("line", (LABELS, y), (WIDTH - MARGIN, y));
        for (x, label) in self.axis.ticks() {
            svg.line("line", (x, y), (x, y + 5.0));
            svg.text("small middle", (x, y + 18.0), &label);
        }
        let mut y = y + 42.0;
        for note in self.notes() {
            svg.text("grey", (LABELS, y), &note);
            y += legend::LINE;
        }
        y - legend::LINE + MARGIN
    }

    fn notes(&self) -> Vec<String> {
        let longest = grouped(self.longest() as u64);
        let height = match self.recordings[0].bodies {
            Bodies::Sealed => "A bar's height is its datagram's length",
            Bodies::Opened => {
                "What datagrams carry is compared; those that are refused are as they were sealed. \
                 A bar's height is the length of either"
            }
        };
        let mut notes = vec![
            "Time is counted from each recording's own first clock, and clocks are compared so; \
             entries of one second stand in their order within it."
                .to_string(),
            format!("{height}; the highest has {longest} bytes."),
        ];
        if self.lanes.has_pairs() {
            let note = "Two sessions that share a lane are those that came at the same place: \
                        the first recording's above the line, the second's below.";
            notes.push(note.to_string());
        }
        notes
    }
}

/// As wide as the closest two entries of one lane and recording allow.
fn bar_width(places: &[Vec<f64>; 2], lanes: &[Vec<Place>; 2]) -> f64 {
    let mut closest = f64::INFINITY;
    for (places, lanes) in places.iter().zip(lanes) {
        let lanes = lanes.iter().map(|place| place.lane);
        let mut row: Vec<(usize, f64)> = lanes.zip(places.iter().copied()).collect();
        row.sort_by(|one, other| one.partial_cmp(other).unwrap_or(std::cmp::Ordering::Equal));
        let pairs = row.windows(2).filter(|pair| pair[0].0 == pair[1].0);
        closest = pairs
            .map(|pair| pair[1].1 - pair[0].1)
            .fold(closest, f64::min);
    }
    (BAR_PART * closest).clamp(LEAST_BAR, MOST_BAR)
}
