//! `compare --opened`.

use std::ffi::OsString;
use std::fs;
use std::path::Path;

use crate::arguments;
use crate::common::{count, folder, recorded, refused, run, said, Entry};
use crate::morning::{morning, KEY, METHOD, READINGS};

const MONDAY: u64 = 1_700_000_000;
const TUESDAY: u64 = MONDAY + 86_417;

fn monday() -> Vec<Entry> {
    morning(MONDAY, [0xaa, 0xbb], READINGS)
}

fn tuesday() -> Vec<Entry> {
    morning(TUESDAY, [0x1cc, 0x1dd], READINGS)
}

/// Writes both recordings and a key: the arguments that compare them opened.
fn opened(folder: &Path, first: &[Entry], second: &[Entry], key: &[u8]) -> Vec<OsString> {
    let [one, other, key_file] = ["monday", "tuesday", "key"].map(|name| folder.join(name));
    fs::write(&one, recorded(first)).unwrap();
    fs::write(&other, recorded(second)).unwrap();
    fs::write(&key_file, relay::base64::encode(key)).unwrap();
    let mut arguments = arguments!["compare", one, other, "--opened"].to_vec();
    arguments.extend_from_slice(arguments!["--method", METHOD, "--key-file", key_file]);
    arguments
}

/// Asserts what is said of two mornings.
fn told(name: &str, first: &[Entry], second: &[Entry], lines: &str) {
    let status = i32::from(lines.lines().count() > 1);
    let output = run(&opened(&folder(name), first, second, &KEY));
    assert_eq!(said(output), (status, lines.to_string()), "{name}");
}

#[test]
fn two_mornings_of_the_same_readings_are_equal() {
    let arguments = opened(&folder("opened"), &monday(), &tuesday(), &KEY);
    assert_eq!(said(run(&arguments)), (0, "entries 5 5\n".to_string()));
    let json = [&arguments[..], arguments!["--json"]].concat();
    let equal = "{\"entries\":[5,5],\"differences\":[]}\n";
    assert_eq!(said(run(&json)), (0, equal.to_string()));
    let (status, sealed) = said(run(&arguments[..3]));
    assert_eq!((status, count(&sealed, "meta ")), (1, 5));
}

#[test]
fn what_differs_is_told_by_the_payload() {
    let readings = [READINGS[0], b"reading 7", b"reading", READINGS[3]];
    let mut other = morning(TUESDAY, [1, 2], readings);
    let lines = "entries 5 5\ndiffer 1 byte 8\nlength 2 9 7\n";
    told("opened-differ", &monday(), &other, lines);
    // A datagram may be recorded a second later than it was sent.
    other[3].1 += 1;
    let lines = format!("{lines}meta 3\n");
    told("opened-clock", &monday(), &other, &lines);
    other.pop();
    let lines = format!("{lines}first-only 4\n").replace("5 5", "5 4");
    told("opened-count", &monday(), &other, &lines);
}

#[test]
fn what_is_refused_stays_sealed() {
    let (first, mut second) = (monday(), tuesday());
    second[1].2[30] ^= 1;
    let sealed = second[1].2.len();
    let lines = format!("entries 5 5\nlength 1 9 {sealed}\n");
    told("opened-damaged", &first, &second, &lines);
    // A repeat is no reading, though it has one.
    let (mut first, mut second) = (monday(), tuesday());
    first.push((0, MONDAY + 3, first[3].2.clone()));
    second.push((0, TUESDAY + 3, second[3].2.clone()));
    let lines = "entries 6 6\ndiffer 5 byte 0\n";
    told("opened-repeats", &first, &second, lines);
}

#[test]
fn with_another_key_nothing_is_opened() {
    let folder = folder("opened-key");
    let arguments = opened(&folder, &monday(), &tuesday(), &[1; 16]);
    let (status, text) = said(run(&arguments));
    assert_eq!((status, count(&text, "differ ")), (1, 5));
    let arguments = opened(&folder, &monday(), &monday(), &[1; 16]);
    assert_eq!(said(run(&arguments)).0, 0);
}

#[test]
fn the_picture_has_both_sessions_of_a_pair_in_one_lane() {
    let folder = folder("opened-picture");
    let mut arguments = opened(&folder, &monday(), &tuesday(), &KEY);
    let out = folder.join("out.svg");
    arguments.extend_from_slice(arguments!["--picture", out]);
    assert_eq!(run(&arguments).status.code(), Some(0));
    let svg = fs::read_to_string(&out).unwrap();
    for (id, lanes) in [("0aa", 1), ("1cc", 1), ("0bb", 2), ("1dd", 2)] {
        assert_eq!(count(&svg, &format!(">0000000000000{id}</text>")), lanes);
    }
    assert_eq!(count(&svg, " → "), 3);
    assert!(svg.contains(">no entry differs</text>"));
    assert_eq!(count(&svg, "5 entries, 36 bytes opened, from 2023-11-1"), 2);
    assert_eq!(count(&svg, ": 9 bytes, clock "), 8);
    assert_eq!(count(&svg, "Two sessions that share a lane"), 1);
    arguments.retain(|argument| argument != "--opened");
    assert_eq!(run(&arguments).status.code(), Some(1));
    let svg = fs::read_to_string(&out).unwrap();
    assert_eq!(count(&svg, ">00000000000001dd</text>"), 2);
    assert!(svg.contains(">5 of 5 entries differ</text>"));
}

#[test]
fn misuse_is_told() {
    let arguments = opened(&folder("opened-misuse"), &monday(), &tuesday(), &KEY);
    let keyless = run(&arguments[..4]);
    refused(keyless, "bhajnolith: compare: --method is missing");
    let fileless = run(&arguments[..6]);
    refused(fileless, "bhajnolith: compare: --key-file is missing");
    let mut older = arguments;
    older[5] = "aes-128-gcm".into();
    refused(run(&older), "bhajnolith: compare: --opened is for methods");
}

/// The same readings, but one of them of the other session.
#[test]
fn a_reading_in_the_wrong_series_differs() {
    let first = morning(MONDAY, [0xaa, 0xbb], READINGS);
    let second = morning(TUESDAY, [0x1cc, 0x1dd], READINGS);
    let swapped = morning(TUESDAY, [0x1dd, 0x1cc], READINGS);
    told("opened-series", &first, &second, "entries 5 5\n");
    let mixed = [&second[..4], &swapped[4..]].concat();
    let output = run(&opened(&folder("opened-mixed"), &first, &mixed, &KEY));
    let (status, lines) = said(output);
    assert_eq!(status, 1, "{lines}");
    assert!(lines.contains(" 4 "), "{lines}");
}
