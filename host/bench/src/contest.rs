//! Lets the columns' contestants run against each other.

use std::error::Error;
use std::io;

use crate::child::Child;
use crate::measure::{Here, Runner};
use crate::options::Pace;
use crate::results::Line;
use crate::rows::{Library, Row};

/// A column of the table: a library in a process.
#[derive(Clone, Copy, Debug, PartialEq, Eq)]
pub enum Column {
    Ours,
    /// Without processor instructions.
    OpenSslWithout,
    NettleWithout,
    BearSslWithout,
    GcryptWithout,
    /// With processor instructions.
    OpenSslWith,
    NettleWith,
    BearSslWith,
    MbedTlsWith,
    SodiumWith,
    Plain,
}

#[derive(Clone, Copy)]
enum Process {
    Here,
    /// The one whose OpenSSL and nettle use no processor instructions. BearSSL and libgcrypt
    /// need none: their caller chooses.
    Child,
}

impl Column {
    pub const ALL: [Column; 11] = [
        Column::Ours,
        Column::OpenSslWithout,
        Column::NettleWithout,
        Column::BearSslWithout,
        Column::GcryptWithout,
        Column::OpenSslWith,
        Column::NettleWith,
        Column::BearSslWith,
        Column::MbedTlsWith,
        Column::SodiumWith,
        Column::Plain,
    ];

    /// Those of the others that use no processor instructions.
    pub const WITHOUT: [Column; 5] = [
        Column::OpenSslWithout,
        Column::NettleWithout,
        Column::BearSslWithout,
        Column::GcryptWithout,
        Column::Plain,
    ];

    pub fn title(self) -> &'static str {
        match self {
            Column::Ours => "ours",
            Column::OpenSslWithout => "OpenSSL without instructions",
            Column::NettleWithout => "nettle without instructions",
            Column::BearSslWithout => "BearSSL without instructions",
            Column::GcryptWithout => "libgcrypt without instructions",
            Column::OpenSslWith => "OpenSSL with instructions",
            Column::NettleWith => "nettle with instructions",
            Column::BearSslWith => "BearSSL with instructions",
            Column::MbedTlsWith => "mbedTLS with instructions",
            Column::SodiumWith => "libsodium with instructions",
            Column::Plain => "plain Rust",
        }
    }

    /// Short, where it is clear which of a library's columns is meant.
    pub fn library_name(self) -> &'static str {
        match self.library() {
            Library::Ours => "ours",
            Library::OpenSsl => "OpenSSL",
            Library::Nettle => "nettle",
            Library::BearSslWithout | Library::BearSslWith => "BearSSL",
            Library::Gcrypt => "gcrypt",
            Library::MbedTls => "mbedTLS",
            Library::Sodium => "sodium",
            Library::Plain => "plain Rust",
        }
    }

    fn library(self) -> Library {
        match self {
            Column::Ours => Library::Ours,
            Column::OpenSslWithout | Column::OpenSslWith => Library::OpenSsl,
            Column::NettleWithout | Column::NettleWith => Library::Nettle,
            Column::BearSslWithout => Library::BearSslWithout,
            Column::BearSslWith => Library::BearSslWith,
            Column::GcryptWithout => Library::Gcrypt,
            Column::MbedTlsWith => Library::MbedTls,
            Column::SodiumWith => Library::Sodium,
            Column::Plain => Library::Plain,
        }
    }

    fn process(self) -> Process {
        match self {
            Column::OpenSslWithout | Column::NettleWithout => Process::Child,
            _ => Process::Here,
        }
    }
}

/// A number for each round and column, or none where a column has no contestant.
pub type Samples = [Vec<f64>; Column::ALL.len()];

/// Both processes, which know the same rows.
pub struct Contest<'a> {
    rows: &'a [Row],
    rounds: usize,
    here: Here<'a>,
    pub child: Child<'a>,
}

impl<'a> Contest<'a> {
    pub fn new(rows: &'a [Row], pace: Pace) -> io::Result<Self> {
        Ok(Self {
            rows,
            rounds: pace.rounds,
            here: Here::new(rows, pace),
            child: Child::start(rows, pace)?,
        })
    }

    fn runner(&mut self, process: Process) -> &mut dyn Runner {
        match process {
            Process::Here => &mut self.here,
            Process::Child => &mut self.child,
        }
    }

    /// Holds each row's outputs to each other, byte for byte. Answers how many rows
    /// there are.
    pub fn compare(&mut self) -> Result<usize, Box<dyn Error>> {
        for (index, row) in self.rows.iter().enumerate() {
            let mut first: Option<(Column, Vec<u8>)> = None;
            for column in Column::ALL {
                let Some(contestant) = row.contestant(column.library()) else {
                    continue;
                };
                let output = self.runner(column.process()).output(index, contestant)?;
                let Some((other, expected)) = &first else {
                    first = Some((column, output));
                    continue;
                };
                if let Some(place) = (0..row.buffer).find(|&i| output[i] != expected[i]) {
                    return Err(format!(
                        "{}: {} and {} differ from byte {place} on",
                        row.name(),
                        other.title(),
                        column.title()
                    )
                    .into());
                }
            }
        }
        Ok(self.rows.len())
    }

    /// Times the rows round by round. Within a row the columns take turns, so that
    /// a change of the processor's speed meets all of them.
    pub fn measure(&mut self) -> io::Result<Vec<Line>> {
        let rows = self.rows.iter().enumerate();
        let timed: Vec<(usize, &Row)> = rows.filter(|(_, row)| row.special.is_none()).collect();
        let mut table = vec![Samples::default(); timed.len()];
        for _ in 0..self.rounds {
            for ((index, row), samples) in timed.iter().zip(&mut table) {
                for (column, samples) in Column::ALL.into_iter().zip(samples) {
                    let Some(contestant) = row.contestant(column.library()) else {
                        continue;
                    };
                    let runner = self.runner(column.process());
                    samples.push(runner.nanoseconds(*index, contestant)?);
                }
            }
        }
        let lines = timed.iter().zip(&table);
        Ok(lines
            .map(|((_, row), samples)| Line::new(row.kind, row.size, samples))
            .collect())
    }
}
