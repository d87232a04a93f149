//! Speed of the proved code beside OpenSSL's, nettle's, BearSSL's, libgcrypt's, mbedTLS's
//! and libsodium's, with and without processor instructions, and for what they have not
//! beside plain Rust, in one table of one run and as a plot. Behind it the
//! box on loopback, beside another relay.
//!
//! All outputs are compared first; a difference ends the run with exit status 1.
//! No speed does.

#![deny(unsafe_code)]

mod about;
mod around;
mod asked;
#[allow(unsafe_code)]
mod bearssl;
mod chachas;
mod child;
mod ciphers;
mod contest;
mod editions;
#[allow(unsafe_code)]
mod gcrypt;
mod kinds;
mod loopback;
#[allow(unsafe_code)]
mod mbedtls;
mod measure;
#[allow(unsafe_code)]
mod nettle;
mod numbers;
#[allow(unsafe_code)]
mod openssl;
mod options;
#[allow(unsafe_code)]
mod ours;
mod plain;
mod plot;
mod results;
mod room;
mod rows;
#[cfg(test)]
mod samples;
mod shape;
mod sip004;
#[allow(unsafe_code)]
mod sodium;
mod spread;
mod standing;
mod suites;
mod table;
mod worst;

use std::env;
use std::error::Error;
use std::fs::{self, OpenOptions};
use std::path::{Path, PathBuf};
use std::process::ExitCode;

use about::About;
use contest::Contest;
use options::{Pace, Task};

/// The exit status for arguments that are not understood.
const MISUSED: u8 = 2;

fn main() -> ExitCode {
    let task = match Task::of(env::args_os().skip(1)) {
        Ok(task) => task,
        Err(message) => {
            eprintln!("bench: {message}");
            return ExitCode::from(MISUSED);
        }
    };
    match perform(task) {
        Ok(()) => ExitCode::SUCCESS,
        Err(error) => {
            eprintln!("bench: {error}");
            ExitCode::FAILURE
        }
    }
}

fn perform(task: Task) -> Result<(), Box<dyn Error>> {
    match task {
        Task::Run { pace, out } => run(pace, &out),
        Task::Serve { pace } => Ok(child::serve(&rows::all(), pace)?),
        Task::Help => {
            println!("{}", options::USAGE);
            Ok(())
        }
    }
}

/// Where the results go, table and plot. That they can be written is seen before a run.
fn outputs(out: &Path) -> Result<[PathBuf; 2], String> {
    fs::create_dir_all(out).map_err(|error| format!("no folder {}: {error}", out.display()))?;
    let paths = ["speed.txt", "speed.svg"].map(|name| out.join(name));
    for path in &paths {
        // Appending nothing leaves an earlier run's results.
        let opened = OpenOptions::new().append(true).create(true).open(path);
        opened.map_err(|error| format!("{} cannot be written: {error}", path.display()))?;
    }
    Ok(paths)
}

fn run(pace: Pace, out: &Path) -> Result<(), Box<dyn Error>> {
    let [table_path, plot_path] = outputs(out)?;
    loopback::prepare()?;
    for name in [openssl::CAPABILITIES, nettle::CAPABILITIES] {
        if env::var_os(name).is_some() {
            return Err(format!(
                "{name} is set: it would take instructions from the column that has them"
            )
            .into());
        }
    }
    let rows = rows::all();
    let mut contest = Contest::new(&rows, pace)?;
    let about = About {
        cpu: about::cpu_model(),
        openssl: openssl::version(),
        with: openssl::capabilities(),
        without: contest.child.capabilities()?,
        nettle: nettle::version(),
        gcrypt: gcrypt::version(),
        mbedtls: mbedtls::version(),
        sodium: sodium::version(),
        sodium_with: sodium::capabilities(),
        compared: contest.compare()?,
        rounds: pace.rounds,
        batches: pace.batches,
    };
    let lines = contest.measure()?;
    let loopback = loopback::measure(pace)?;
    let table = format!("{}\n{}", table::text(&about, &lines), loopback.text());
    print!("{table}");
    for (path, content) in [(table_path, table), (plot_path, plot::draw(&about, &lines))] {
        fs::write(&path, content)?;
        println!("Written: {}", path.display());
    }
    Ok(())
}
