//! What was measured, as text. It is said and not demanded.

use super::course::Way;
use super::program::{Whose, THEIRS};
use super::{Loopback, Needed, Row, LOADS, SHARED};
use crate::numbers::{grouped, rounded};
use crate::results::Summary;
use crate::table::{self, Span};

/// With this payload so many times the rate of the bench is asked for.
const BYTES: usize = 1_400;
const RATE: usize = 400;
const TIMES: usize = 20;

/// The processor's time is told for so many datagrams.
const COUNTED: usize = 10_000;

const SEALED: &str =
    "         sealed before the time, replies opened behind it; payloads arrive as they were sent";

const BUSY: &str =
    "         below 1 the relay waits, for the generator or for others on its processor";

impl Row {
    /// Datagrams a second, or exchanges.
    fn rate(&self, way: Way) -> Option<Summary> {
        let datagrams = self.load.datagrams as f64;
        let samples = self.samples[way as usize].iter();
        let rates = samples.map(|sample| datagrams / sample.seconds);
        Summary::of(&rates.collect::<Vec<_>>())
    }

    /// Seconds of the processor's time for so many, and as a part of the time that passed.
    fn cpu(&self, way: Way) -> Option<(f64, f64)> {
        let samples = &self.samples[way as usize];
        let cpu: f64 = samples.iter().map(|sample| sample.cpu).sum::<Option<_>>()?;
        let passed: f64 = samples.iter().map(|sample| sample.seconds).sum();
        let datagrams = samples.len() * self.load.datagrams;
        Some((cpu * COUNTED as f64 / datagrams as f64, cpu / passed))
    }

    fn name(&self) -> String {
        format!("{}, {}", self.whose.name(), self.method)
    }

    fn cells(&self) -> Vec<String> {
        let mut cells = vec![self.name(), grouped(self.load.bytes)];
        for way in Way::ALL {
            let rate = self.rate(way);
            let times = rate.map(|rate| rate.median / RATE as f64);
            let cpu = self.cpu(way);
            cells.extend([
                table::with_quartiles(rate),
                table::or_dash(times, rounded),
                table::or_dash(cpu, |(seconds, _)| rounded(seconds)),
                table::or_dash(cpu, |(_, part)| rounded(part)),
            ]);
        }
        cells
    }
}

fn spans() -> Vec<Span> {
    let heads = |rate| vec![rate, "of 400", "CPU s", "busy"];
    vec![
        Span::new("The box on loopback", vec!["", "bytes"]),
        Span::new("to the target", heads("datagrams/s")),
        Span::new("and back", heads("exchanges/s")),
    ]
}

impl Loopback {
    /// How it was measured, the rows, ours beside theirs, and whether what is asked for is met.
    pub fn text(&self) -> String {
        let mut text = self.about();
        let missing = self.missing.iter();
        text.extend(missing.map(|Needed { program, package }| {
            format!("Missing  {program} ({package}): not measured")
        }));
        if !self.rows.is_empty() {
            text.push(String::new());
            let cells: Vec<_> = self.rows.iter().map(Row::cells).collect();
            text.extend(table::laid_out(&spans(), &cells));
        }
        text.push(String::new());
        text.extend(self.beside());
        text.push(self.statement());
        text.push(String::new());
        text.join("\n")
    }

    fn about(&self) -> Vec<String> {
        let cores = match self.has_two_cores {
            true => "a processor; the generator, client and target in one, has another",
            false => "the only processor, which it shares with the generator",
        };
        let windows = LOADS.map(|load| format!("{} of {} bytes", load.window, grouped(load.bytes)));
        vec![
            format!(
                "Loopback through a relay on {cores}; median of {} interleaved rounds (quartiles)",
                self.rounds
            ),
            format!(
                "         as many on their way at a time as no socket loses, {}: one that arrives lets the next one go",
                windows.join(", ")
            ),
            SEALED.to_string(),
            format!(
                "CPU s    of the relay for {} datagrams or exchanges; busy: its part of the time that passed",
                grouped(COUNTED)
            ),
            BUSY.to_string(),
        ]
    }

    /// Ours and theirs with the same method, round by round.
    fn beside(&self) -> Vec<String> {
        let of = |whose| {
            let rows = self.rows.iter();
            rows.filter(move |row| row.whose == whose && row.method == SHARED)
        };
        let mut text = Vec::new();
        for (way, name) in Way::ALL.into_iter().zip(["to the target", "and back"]) {
            let cells: String = of(Whose::Ours)
                .zip(of(Whose::Theirs))
                .filter_map(|(ours, theirs)| {
                    let ratio = table::with_quartiles(Some(ratio(ours, theirs, way)?));
                    Some(format!("{:>8}  {ratio}", grouped(ours.load.bytes)))
                })
                .collect();
            if !cells.is_empty() {
                text.push(format!("serve / {THEIRS}, {SHARED}, {name:13}{cells}"));
            }
        }
        text
    }

    /// One round is no judgement.
    fn statement(&self) -> String {
        let asked = format!(
            "Asked for with {} bytes: {TIMES} times {RATE} = {} datagrams a second.",
            grouped(BYTES),
            grouped(TIMES * RATE)
        );
        let rows = self.rows.iter();
        let ours = rows.filter(|row| row.whose == Whose::Ours && row.load.bytes == BYTES);
        let rates = ours.filter_map(|row| Some((row, row.rate(Way::There)?.median)));
        let Some((row, rate)) = rates.min_by(|(_, a), (_, b)| a.total_cmp(b)) else {
            return format!("{asked} Ours was not measured.");
        };
        let busy = row.cpu(Way::There).map_or(1.0, |(_, part)| part);
        let verdict = match rate >= (TIMES * RATE) as f64 {
            _ if self.rounds == 1 => "",
            true => ", met",
            false => ", not met",
        };
        format!(
            "{asked} Ours at the slowest ({}, busy {}): {}, {} times{verdict}.",
            row.method,
            rounded(busy),
            grouped(rate as usize),
            rounded(rate / RATE as f64),
        )
    }
}

/// Of the rates in the same rounds: above 1 ours is the faster.
fn ratio(ours: &Row, theirs: &Row, way: Way) -> Option<Summary> {
    let [ours, theirs] = [ours, theirs].map(|row| row.samples[way as usize].iter());
    let ratios = theirs
        .zip(ours)
        .map(|(theirs, ours)| theirs.seconds / ours.seconds);
    Summary::of(&ratios.collect::<Vec<_>>())
}

#[cfg(test)]
mod tests {
    use super::super::{relays, Load, Loopback, Row, LOADS, NEEDED};
    use crate::loopback::course::Sample;
    use crate::loopback::program::Whose;

    /// So many datagrams a second of ours, and twice as many of theirs.
    fn loopback(rate: f64) -> Loopback {
        let mut rows = Vec::new();
        for load in LOADS {
            rows.extend(relays(false).into_iter().map(|(whose, method)| {
                let rate = if whose == Whose::Ours {
                    rate
                } else {
                    2.0 * rate
                };
                let samples = || sample(load, rate);
                let samples = [samples(), samples()];
                Row {
                    whose,
                    method,
                    load,
                    samples,
                }
            }));
        }
        Loopback {
            rows,
            rounds: 2,
            has_two_cores: true,
            missing: Vec::new(),
        }
    }

    fn sample(load: Load, rate: f64) -> Vec<Sample> {
        let seconds = load.datagrams as f64 / rate;
        let sample = || Sample {
            seconds,
            cpu: Some(seconds / 2.0),
        };
        vec![sample(), sample()]
    }

    #[test]
    fn a_terminal_of_160_columns_holds_it() {
        for line in loopback(123_456.0).text().lines() {
            assert!(line.chars().count() <= 160, "{line}");
        }
    }

    #[test]
    fn a_row_has_rates_and_times() {
        let text = loopback(10_000.0).text();
        let row = text
            .lines()
            .find(|line| line.starts_with("serve, aes-256-gcm"));
        let words: Vec<&str> = row.expect("a row").split_whitespace().skip(2).collect();
        let way = ["10,000", "(10,000–10,000)", "25.0", "0.500", "0.500"];
        assert_eq!(words, [&["64"][..], &way, &way].concat());
        let ratio = "and back           64  0.500 (0.500–0.500)   1,400  0.500";
        assert!(text.contains(ratio), "{text}");
    }

    #[test]
    fn what_is_asked_for_is_told() {
        let last = |rate| {
            let text = loopback(rate).text();
            text.lines().last().expect("a statement").to_string()
        };
        assert!(
            last(8_000.0).ends_with("8,000, 20.0 times, met."),
            "{}",
            last(8_000.0)
        );
        assert!(last(7_999.0).ends_with("not met."));
    }

    #[test]
    fn a_program_that_is_missing_is_told() {
        let loopback = Loopback {
            rows: Vec::new(),
            missing: NEEDED.to_vec(),
            ..loopback(1.0)
        };
        let text = loopback.text();
        assert!(text.contains("Missing  taskset (util-linux): not measured\nMissing  ss-server"));
        assert!(text.ends_with("Ours was not measured.\n"), "{text}");
    }
}
