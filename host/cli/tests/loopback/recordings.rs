//! Recordings that a box makes.

use std::fs;
use std::thread;
use std::time::Duration;

use crate::place::{Place, METHOD};
use crate::plain::{self, User};
use crate::program;
use crate::target::Echo;
use crate::wait;

/// What comes all the time is there to be read, too.
#[test]
fn a_recording_is_written_while_it_goes_on() {
    let place = Place::new("recording", METHOD);
    let target = Echo::new();
    let recording = place.file("morning");
    let serve = place.serve(&["--record", &recording]);
    let connect = place.connect(serve.address(), target.address, &[]);
    let user = User::new(connect.address());
    wait::until("the recording is written", || {
        user.exchange(b"reading");
        thread::sleep(Duration::from_millis(100));
        fs::exists(format!("{recording}.000001")).is_ok_and(|is_there| is_there)
    });
}

/// The longest file that `compare` takes.
const LONGEST_FILE: u64 = 32_768;

#[test]
fn recordings_are_compared() {
    let place = Place::new("record", METHOD);
    let target = Echo::new();
    let recording = place.file("morning");
    let serve = place.serve(&["--record", &recording]);
    let connect = place.connect(serve.address(), target.address, &[]);
    let user = User::new(connect.address());
    for length in [10, 1_400, 9_000, 9_000, 60_000, 10] {
        user.exchange(&plain::bytes(1, length));
    }
    // The first file has room for three of 9,000 bytes, and the second gets the fourth. There and
    // back, 60,000 bytes have a file of their own.
    let files: [String; 5] = std::array::from_fn(|place| format!("{recording}.{:06}", place + 1));
    let length = |name: &String| fs::metadata(name).map_or(0, |file| file.len());
    wait::until("five files are written", || {
        files.iter().all(|name| length(name) > 0)
    });
    assert_eq!(serve.log().matches("too long for `compare`").count(), 2);
    let (taken, longer): (Vec<_>, Vec<_>) =
        files.iter().partition(|name| length(name) <= LONGEST_FILE);
    assert_eq!(longer, [&files[2], &files[3]]);
    for name in taken {
        let text = program::answer(&["compare", name, name]);
        assert!(!text.is_empty());
    }
    let differ = program::run(&["compare", &files[0], &files[1]]);
    assert_eq!(differ.status.code(), Some(1));
}
