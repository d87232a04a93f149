//! The program, which runs until it is dropped.

use std::fs;
use std::io::{BufRead, BufReader};
use std::net::SocketAddr;
use std::process::{Child, ChildStderr, Command, Output, Stdio};
use std::sync::mpsc::{self, Receiver, Sender};
use std::sync::{Arc, Mutex};
use std::thread;

use crate::PATIENCE;

const PROGRAM: &str = env!("CARGO_BIN_EXE_bhajnolith");

/// What comes before the address on a line that tells of a service.
const LISTENING: &str = "listening on ";

type Log = Arc<Mutex<String>>;

/// `bhajnolith serve` or `bhajnolith connect`.
pub struct Program {
    arguments: String,
    child: Child,
    log: Log,
    /// Where it listens, by service.
    pub addresses: Vec<SocketAddr>,
}

impl Program {
    /// Starts it, and waits until all its services listen.
    pub fn start(arguments: &[String]) -> Self {
        let mut child = command()
            .args(arguments)
            .stdin(Stdio::null())
            .stdout(Stdio::null())
            .stderr(Stdio::piped())
            .spawn()
            .expect("the program starts");
        let log = Log::default();
        let (told, listening) = mpsc::channel();
        let output = child.stderr.take().expect("standard error is a pipe");
        let kept = Arc::clone(&log);
        thread::spawn(move || keep(output, &kept, &told));
        let mut program = Self {
            arguments: arguments.join(" "),
            child,
            log,
            addresses: Vec::new(),
        };
        let services = arguments.iter().filter(|name| *name == "--listen").count();
        program.listen(services, &listening);
        program
    }

    fn listen(&mut self, services: usize, listening: &Receiver<SocketAddr>) {
        while self.addresses.len() < services {
            match listening.recv_timeout(PATIENCE) {
                Ok(address) => self.addresses.push(address),
                Err(error) => panic!("it does not tell where it listens: {error}"),
            }
        }
    }

    /// Where its only service listens.
    pub fn address(&self) -> SocketAddr {
        self.addresses[0]
    }

    pub fn id(&self) -> u32 {
        self.child.id()
    }

    pub fn memory(&self) -> Memory {
        Memory::of(self.id())
    }

    /// What it wrote to standard error so far.
    pub fn log(&self) -> String {
        self.log.lock().expect("no reader panics").clone()
    }

    /// Ends it without a warning.
    pub fn kill(mut self) {
        self.end();
    }

    fn end(&mut self) {
        // It may have ended by itself.
        let _ = self.child.kill();
        let _ = self.child.wait();
    }
}

impl Drop for Program {
    fn drop(&mut self) {
        self.end();
        if thread::panicking() {
            let log = self
                .log
                .lock()
                .map_or_else(|_| String::new(), |log| log.clone());
            eprintln!("bhajnolith {}\n{}", self.arguments, log.trim_end());
        }
    }
}

/// Runs the program to its end.
pub fn run(arguments: &[&str]) -> Output {
    command()
        .args(arguments)
        .output()
        .expect("the program runs")
}

/// What a run writes to standard output, if it says yes.
pub fn answer(arguments: &[&str]) -> String {
    let output = run(arguments);
    let errors = String::from_utf8_lossy(&output.stderr);
    assert!(
        output.status.success(),
        "{arguments:?}: {} {errors}",
        output.status
    );
    String::from_utf8(output.stdout).expect("the answer is text")
}

/// No key comes from the environment.
fn command() -> Command {
    let mut command = Command::new(PROGRAM);
    command.env_remove("BHAJNOLITH_KEY");
    command
}

/// Keeps what a program writes, and tells of the addresses in it.
fn keep(output: ChildStderr, log: &Log, told: &Sender<SocketAddr>) {
    for line in BufReader::new(output).lines().map_while(Result::ok) {
        if let Some(address) = listening(&line) {
            // Nobody waits for it once the program has started.
            let _ = told.send(address);
        }
        if let Ok(mut log) = log.lock() {
            log.push_str(&line);
            log.push('\n');
        }
    }
}

fn listening(line: &str) -> Option<SocketAddr> {
    let (_, rest) = line.split_once(LISTENING)?;
    rest.split_once(',')?.0.parse().ok()
}

/// By how much a process that does not grow may differ from itself, in KiB: it takes snapshots of
/// its state now and then.
const BOUND: u64 = 512;

/// What a process has, in KiB.
#[derive(Clone, Copy, Debug)]
pub struct Memory {
    /// Data and stacks that it may write, in use or not.
    pub data: u64,
    /// What of all its memory lies in the machine's.
    pub resident: u64,
}

impl Memory {
    fn of(process: u32) -> Self {
        let status = fs::read_to_string(format!("/proc/{process}/status"));
        let status = status.expect("the process runs");
        let value = |name: &str| {
            let line = status.lines().find_map(|line| line.strip_prefix(name));
            let number = line.and_then(|line| line.split_whitespace().next());
            number.and_then(|number| number.parse().ok()).expect(name)
        };
        Self {
            data: value("VmData:"),
            resident: value("VmRSS:"),
        }
    }

    /// What comes and goes takes no more of it.
    pub fn assert_not_grown(before: Self, after: Self) {
        let (data, resident) = (before.data + BOUND, before.resident + BOUND);
        assert!(
            after.data <= data && after.resident <= resident,
            "the memory grows by over {BOUND} KiB: {before:?}, then {after:?}"
        );
    }
}

/// The sockets for datagrams of a process: how many datagrams the system dropped at each, as the
/// process did not keep up.
pub fn datagram_sockets(process: u32) -> Vec<u64> {
    let files = fs::read_dir(format!("/proc/{process}/fd")).expect("the process runs");
    let links = files.filter_map(|file| fs::read_link(file.ok()?.path()).ok());
    let sockets: Vec<String> = links.map(|link| link.display().to_string()).collect();
    let is_its_own = |inode: &str| sockets.contains(&format!("socket:[{inode}]"));
    ["/proc/net/udp", "/proc/net/udp6"]
        .into_iter()
        .map(|table| fs::read_to_string(table).unwrap_or_default())
        .flat_map(|table| table.lines().skip(1).map(String::from).collect::<Vec<_>>())
        .filter_map(|line| {
            let columns: Vec<&str> = line.split_whitespace().collect();
            let (inode, dropped) = (*columns.get(9)?, *columns.get(12)?);
            is_its_own(inode).then(|| dropped.parse().ok())?
        })
        .collect()
}
