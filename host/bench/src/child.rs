//! A second process of this program, whose OpenSSL and nettle were loaded without
//! processor instructions: that is decided when a library is loaded, once for a
//! process.
//!
//! A request is a line on the child's standard input: `capabilities`, or `output`
//! or `time` with a row and a contestant. The answer on its standard output is a
//! line, but for `output` the row's bytes. The end of the input ends the child.

use std::env;
use std::io::{self, BufRead, BufReader, Read, Write};
use std::process::{self, ChildStdin, ChildStdout, Command, Stdio};
use std::str::FromStr;

use crate::measure::{Here, Runner};
use crate::nettle;
use crate::openssl;
use crate::options::{self, Pace};
use crate::rows::Row;

/// The parent's end.
pub struct Child<'a> {
    rows: &'a [Row],
    process: process::Child,
    /// `None` once closed.
    requests: Option<ChildStdin>,
    answers: BufReader<ChildStdout>,
}

impl<'a> Child<'a> {
    pub fn start(rows: &'a [Row], pace: Pace) -> io::Result<Self> {
        let quick = (pace == Pace::QUICK).then_some(options::QUICK);
        let mut process = Command::new(env::current_exe()?)
            .arg(options::CHILD)
            .args(quick)
            .env(openssl::CAPABILITIES, openssl::NO_CAPABILITIES)
            .env(nettle::CAPABILITIES, nettle::NO_CAPABILITIES)
            .stdin(Stdio::piped())
            .stdout(Stdio::piped())
            .spawn()?;
        let requests = process.stdin.take();
        let answers = BufReader::new(process.stdout.take().expect("standard output is piped"));
        Ok(Self {
            rows,
            process,
            requests,
            answers,
        })
    }

    /// The processor instructions that the child's OpenSSL uses.
    pub fn capabilities(&mut self) -> io::Result<String> {
        self.ask("capabilities")?;
        self.line()
    }

    fn ask(&mut self, request: &str) -> io::Result<()> {
        let requests = self.requests.as_mut().expect("open until dropped");
        writeln!(requests, "{request}")
    }

    fn line(&mut self) -> io::Result<String> {
        let mut line = String::new();
        if self.answers.read_line(&mut line)? == 0 {
            return Err(io::ErrorKind::UnexpectedEof.into());
        }
        Ok(line.trim_end().to_string())
    }
}

impl Runner for Child<'_> {
    fn output(&mut self, row: usize, contestant: usize) -> io::Result<Vec<u8>> {
        self.ask(&format!("output {row} {contestant}"))?;
        let mut output = vec![0; self.rows[row].buffer];
        self.answers.read_exact(&mut output)?;
        Ok(output)
    }

    fn nanoseconds(&mut self, row: usize, contestant: usize) -> io::Result<f64> {
        self.ask(&format!("time {row} {contestant}"))?;
        number(&self.line()?)
    }
}

impl Drop for Child<'_> {
    fn drop(&mut self) {
        // The child ends at the end of its input; nothing is left to report.
        self.requests = None;
        let _ = self.process.wait();
    }
}

/// The child's end: answers requests until there are no more.
pub fn serve(rows: &[Row], pace: Pace) -> io::Result<()> {
    let mut here = Here::new(rows, pace);
    let mut answers = io::stdout().lock();
    for request in io::stdin().lock().lines() {
        let request = request?;
        let words: Vec<&str> = request.split(' ').collect();
        match words[..] {
            ["capabilities"] => writeln!(answers, "{}", openssl::capabilities())?,
            ["output", row, contestant] => {
                answers.write_all(&here.output(number(row)?, number(contestant)?)?)?;
            }
            ["time", row, contestant] => {
                writeln!(
                    answers,
                    "{}",
                    here.nanoseconds(number(row)?, number(contestant)?)?
                )?;
            }
            _ => return Err(invalid(&request)),
        }
        answers.flush()?;
    }
    Ok(())
}

fn number<T: FromStr>(word: &str) -> io::Result<T> {
    word.parse().map_err(|_| invalid(word))
}

fn invalid(message: &str) -> io::Error {
    io::Error::new(
        io::ErrorKind::InvalidData,
        format!("not understood: {message:?}"),
    )
}
