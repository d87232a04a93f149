//! The box on loopback: datagrams through `bhajnolith serve`, and beside it through what a user
//! would take instead, `ss-server` of shadowsocks-libev.
//!
//! Each relay runs on one processor. This process, client and target in one, has another.

mod client;
mod cores;
mod course;
mod program;
mod report;

use std::error::Error;

use relay::settings::Method;
use relay::sip004;

use crate::options::Pace;
use cores::{is_installed, Cores, TASKSET};
use course::{Course, Load, Sample, Way};
use program::{Whose, THEIRS};

type Outcome<T> = Result<T, Box<dyn Error>>;

/// The method that both relays have.
const SHARED: Method = Method::Sip004(sip004::Method::Aes256Gcm);

/// A socket has room for 212,992 bytes, in which each datagram counts with what the system puts
/// around it: about 2,300 bytes for 1,400, 17,000 for 9,000.
const LOADS: [Load; 3] = [
    Load {
        bytes: 64,
        datagrams: 3_000,
        window: 32,
    },
    Load {
        bytes: 1_400,
        datagrams: 2_000,
        window: 32,
    },
    Load {
        bytes: 9_000,
        datagrams: 400,
        window: 8,
    },
];

/// What each relay is given first, outside the time: it fills caches and what a program has not
/// touched yet.
const WARM_UP: Load = Load {
    datagrams: 1_000,
    ..LOADS[0]
};

/// How many rounds there are; one more than a multiple of four, so that the quartiles are samples.
const ROUNDS: usize = 5;

/// In a quick run there is one, with so much less.
const QUICK_PART: usize = 50;

/// The samples of one relay with one load.
struct Row {
    whose: Whose,
    method: Method,
    load: Load,
    /// For each way.
    samples: [Vec<Sample>; Way::ALL.len()],
}

/// What was measured.
pub struct Loopback {
    rows: Vec<Row>,
    rounds: usize,
    has_two_cores: bool,
    /// What is not installed.
    missing: Vec<Needed>,
}

/// A program, and the package that brings it.
#[derive(Clone, Copy, PartialEq, Eq)]
struct Needed {
    program: &'static str,
    package: &'static str,
}

const NEEDED: [Needed; 2] = [
    Needed {
        program: TASKSET,
        package: "util-linux",
    },
    Needed {
        program: THEIRS,
        package: "shadowsocks-libev",
    },
];

/// Sees that ours is there, before all else is measured.
pub fn prepare() -> Outcome<()> {
    program::our_path().map(drop)
}

/// Measures round by round. Within a load the relays take turns, so that a change of the
/// machine's speed meets all of them. From then on this process stays on its processor.
pub fn measure(pace: Pace) -> Outcome<Loopback> {
    let mut missing = NEEDED.to_vec();
    missing.retain(|needed| !is_installed(needed.program));
    let is_missing = |program| missing.iter().any(|needed| needed.program == program);
    let cores = Cores::of_this_process()?;
    let (rounds, part) = match pace {
        Pace::QUICK => (1, QUICK_PART),
        _ => (ROUNDS, 1),
    };
    let quickened = |load: Load| Load {
        datagrams: load.datagrams / part,
        ..load
    };
    let mut courses = Vec::new();
    if !is_missing(TASKSET) {
        cores.bind_generator()?;
        for (whose, method) in relays(is_missing(THEIRS)) {
            let mut course = Course::start(whose, method, cores)?;
            course.sample(quickened(WARM_UP), Way::Back)?;
            courses.push(course);
        }
    }
    Ok(Loopback {
        rows: run(&mut courses, &LOADS.map(quickened), rounds)?,
        rounds,
        has_two_cores: cores.are_two(),
        missing,
    })
}

/// Ours with each method of 2022, and both with one of 2017.
fn relays(without_theirs: bool) -> Vec<(Whose, Method)> {
    let newer = relay::Method::ALL.map(|method| (Whose::Ours, Method::from(method)));
    let mut relays = newer.to_vec();
    relays.push((Whose::Ours, SHARED));
    if !without_theirs {
        relays.push((Whose::Theirs, SHARED));
    }
    relays
}

fn run(courses: &mut [Course], loads: &[Load], rounds: usize) -> Outcome<Vec<Row>> {
    let row = |course: &Course, load| Row {
        whose: course.whose,
        method: course.method,
        load,
        samples: Default::default(),
    };
    let mut table: Vec<Vec<Row>> = loads
        .iter()
        .map(|&load| courses.iter().map(|course| row(course, load)).collect())
        .collect();
    for _ in 0..rounds {
        for rows in &mut table {
            for way in Way::ALL {
                for (course, row) in courses.iter_mut().zip(&mut *rows) {
                    row.samples[way as usize].push(course.sample(row.load, way)?);
                }
            }
        }
    }
    Ok(table.into_iter().flatten().collect())
}
