//! What is printed.

use std::io::{self, IsTerminal, Write};

use relay::Method;

use crate::disagreement::Disagreement;
use crate::meter::Meter;
use crate::receiver::Counted;
use crate::replays::Again;
use crate::rules;
use crate::soak::{State, Summary};
use crate::tally::Tally;

/// Minutes between two lines of progress, where they are not one line.
const STEP: u64 = 5;

/// Clients side by side in the table, and what stands between them.
const ABREAST: usize = 3;
const GAP: &str = "   ";

/// Refusals of the server, but for replays, in columns.
const COLUMNS: [(u64, &str); 6] = [
    (rules::LENGTH, "length"),
    (rules::ROOM, "room"),
    (rules::NOT_AUTHENTIC, "forged"),
    (rules::TYPE, "type"),
    (rules::WRONG_TIME, "time"),
    (rules::FULL, "full"),
];

/// Shows how far the run is: one line that changes, or a line now and then.
pub fn progress(state: &State) {
    let mut out = io::stdout();
    let is_last = state.second == state.seconds_in_all;
    let line = format!(
        "{:02}:{:02} of the clock   {:>9} accepted   {:>7} refused   {:>2} sessions alive",
        state.second / 3_600,
        state.second / 60 % 60,
        grouped(state.tally.accepted),
        grouped(state.tally.refused()),
        state.alive
    );
    if out.is_terminal() {
        let end = if is_last { "\n" } else { "" };
        print!("\r{line}{end}");
    } else if is_last || state.second % (60 * STEP) == 0 {
        println!("{line}");
    }
    // What a line that changes shows is worth nothing later.
    let _ = out.flush();
}

/// Says what went wrong, behind the line that changes.
pub fn disagreement(disagreement: &Disagreement) {
    if io::stdout().is_terminal() {
        println!();
    }
    eprintln!("soak: the library and the rules disagree");
    eprintln!("soak: {disagreement}");
}

pub fn summary(summary: &Summary) {
    table(summary);
    sums(summary);
    sessions(summary);
    throughput(summary);
    conclusion(summary);
    replays(&summary.again);
}

fn table(summary: &Summary) {
    println!();
    println!("Datagrams of each client: accepted, refused as replays, and refused otherwise");
    println!();
    println!(
        "{}",
        ["client accepted replayed refused"; ABREAST].join(GAP)
    );
    let clients = summary.rows.len();
    let lines = clients.div_ceil(ABREAST);
    for line in 0..lines {
        let abreast = (line..clients).step_by(lines);
        let cells: Vec<_> = abreast.map(|i| cell(i + 1, &summary.rows[i].1)).collect();
        println!("{}", cells.join(GAP));
    }
}

fn cell(client: usize, tally: &Tally) -> String {
    let replayed = tally.refused_with(rules::REPLAY);
    let otherwise = tally.refused() - replayed;
    format!(
        "{client:>6} {:>8} {replayed:>8} {otherwise:>7}",
        tally.accepted
    )
}

/// The counts that the table has for each session alive, beside the model's.
fn sessions(summary: &Summary) {
    const SIDE_BY_SIDE: usize = 2;
    println!();
    println!("Sessions alive at the end: accepted and repeats, in the table and by the rules");
    println!();
    println!(
        "{}",
        ["session           accepted repeats   accepted repeats"; SIDE_BY_SIDE].join(GAP)
    );
    let alive = summary.sessions.len();
    let lines = alive.div_ceil(SIDE_BY_SIDE);
    for line in 0..lines {
        let abreast = summary.sessions[line..].iter().step_by(lines);
        let cells: Vec<_> = abreast.map(session_cell).collect();
        println!("{}", cells.join(GAP));
    }
}

fn session_cell(session: &Counted) -> String {
    let (library, rules) = (session.library, session.rules);
    format!(
        "{:016x} {:>9} {:>7} {:>10} {:>7}",
        session.session_id, library.accepted, library.repeats, rules.accepted, rules.repeats
    )
}

/// What became of the datagrams of all clients.
fn sums(summary: &Summary) {
    println!();
    print!("sessions  accepted  8 replay");
    for (number, name) in COLUMNS {
        print!("  {:>8}", format!("{number} {name}"));
    }
    println!("   replies");
    let (mut sessions, mut tally, mut replies) = (0, Tally::default(), Tally::default());
    for row in &summary.rows {
        sessions += row.0;
        tally += row.1;
        replies += row.2;
    }
    print!(
        "{sessions:>8}  {:>8}  {:>8}",
        tally.accepted,
        tally.refused_with(rules::REPLAY)
    );
    for (number, _) in COLUMNS {
        print!("  {:>8}", tally.refused_with(number));
    }
    println!("  {:>8}", replies.accepted);
}

fn throughput(summary: &Summary) {
    println!();
    println!("Time in the library's calls, one at a time");
    for (name, meter) in [("opened", &summary.opened), ("sealed", &summary.sealed)] {
        speed(name, meter);
    }
}

fn speed(name: &str, meter: &Meter) {
    println!(
        "{name}  {:>9} datagrams  {:>5.0} MB  {:>5.1} s  {:>7.0} datagrams/s  {:>5.1} MB/s",
        grouped(meter.datagrams),
        meter.bytes as f64 / 1e6,
        meter.seconds(),
        meter.datagrams as f64 / meter.seconds(),
        meter.bytes as f64 / 1e6 / meter.seconds()
    );
}

fn conclusion(summary: &Summary) {
    let (mut server, mut clients) = (Tally::default(), Tally::default());
    for (_, tally, replies) in &summary.rows {
        server += *tally;
        clients += *replies;
    }
    println!();
    println!(
        "{} minutes of clock in {:.1} s, as long with each of {} methods; {} datagrams came to the relay.",
        summary.minutes,
        summary.seconds,
        Method::ALL.len(),
        grouped(server.accepted + server.refused())
    );
    println!(
        "{} messages were counted, each once and in its own session; none was lost.",
        grouped(summary.counted)
    );
    println!(
        "{} datagrams were refused, each with the number that the rules give.",
        grouped(server.refused())
    );
    println!(
        "{} replies were accepted, and {} refused: {} replayed, {} forged, {} for others.",
        grouped(clients.accepted),
        grouped(clients.refused()),
        grouped(clients.refused_with(rules::REPLAY)),
        grouped(clients.refused_with(rules::NOT_AUTHENTIC) + clients.refused_with(rules::LENGTH)),
        grouped(clients.refused_with(rules::BINDING))
    );
    println!(
        "The sessions were compared {} times: the library and the rules agree.",
        summary.looks
    );
}

/// What became of the run that came again.
fn replays(again: &Again) {
    println!(
        "{} datagrams came again at every second until they were stale, {} copies in all: {} repeats, {} stale.",
        grouped(again.sent),
        grouped(again.copies.accepted + again.copies.refused()),
        grouped(again.copies.refused_with(rules::REPLAY)),
        grouped(again.copies.refused_with(rules::WRONG_TIME))
    );
    println!(
        "{} were counted, none twice, while {} sessions were forgotten and begun again.",
        grouped(again.first.accepted + again.copies.accepted),
        grouped(again.begun_again)
    );
}

/// A number with its thousands apart.
fn grouped(number: u64) -> String {
    let digits = number.to_string();
    let mut text = String::new();
    for (place, digit) in digits.chars().enumerate() {
        if place > 0 && (digits.len() - place) % 3 == 0 {
            text.push(',');
        }
        text.push(digit);
    }
    text
}

#[cfg(test)]
mod tests {
    use super::grouped;

    #[test]
    fn thousands_stand_apart() {
        for (number, text) in [(0, "0"), (999, "999"), (1_000, "1,000")] {
            assert_eq!(grouped(number), text);
        }
        assert_eq!(grouped(1_440_000), "1,440,000");
    }
}
