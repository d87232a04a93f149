//! `compare --picture`.

use std::fs;
use std::path::{Path, PathBuf};

use crate::arguments;
use crate::common::{count, folder, program, recorded, refused, run, Entry};
use crate::morning::{morning, KEY, METHOD, READINGS};

const START: u64 = 1_700_000_000;

fn exchange() -> Vec<Entry> {
    morning(START, [0xaa, 0xbb], READINGS)
}

/// Writes both recordings and the key.
fn files(folder: &Path, first: &[Entry], second: &[Entry]) -> [PathBuf; 3] {
    let paths = ["first <&>", "second", "key"].map(|name| folder.join(name));
    fs::write(&paths[0], recorded(first)).unwrap();
    fs::write(&paths[1], recorded(second)).unwrap();
    fs::write(&paths[2], relay::base64::encode(&KEY) + "\n").unwrap();
    paths
}

/// The picture of an exchange and one with a damaged datagram and a repeat, and a datagram's length.
fn drawn(folder: &Path) -> (String, usize) {
    let (first, mut second) = (exchange(), exchange());
    second[1].2[30] ^= 1;
    second.push((0, START + 3, second[0].2.clone()));
    let [one, other, key] = files(folder, &first, &second);
    let out = folder.join("out.svg");
    let mut arguments = arguments!["compare", one, other, "--picture", out].to_vec();
    arguments.extend_from_slice(arguments!["--method", METHOD, "--key-file", key]);
    let output = run(&arguments);
    assert_eq!(output.status.code(), Some(1));
    let told = b"entries 5 6\ndiffer 1 byte 30\nsecond-only 5\n";
    assert_eq!(output.stdout, told);
    (fs::read_to_string(&out).unwrap(), first[0].2.len())
}

#[test]
fn sessions_and_directions_have_lanes() {
    let (svg, length) = drawn(&folder("picture"));
    assert_eq!(count(&svg, ">00000000000000aa</text>"), 1);
    assert_eq!(count(&svg, ">00000000000000bb</text>"), 2);
    assert_eq!(count(&svg, ">not opened</text>"), 1);
    let damaged = "clock 1700000000 (+0 s), refused 4, differs from byte 30 on";
    assert!(svg.contains(&format!(
        "<g><title>second 1: {length} bytes, {damaged}</title>"
    )));
    let repeated = "clock 1700000003 (+3 s), refused 8, here only";
    assert!(svg.contains(&format!(
        "<g><title>second 5: {length} bytes, {repeated}</title>"
    )));
    assert!(svg.contains("refused, by number: 0 of first, 2 of second"));
    assert_eq!(count(&svg, "<g><title>first "), 5);
    assert_eq!(count(&svg, "<g><title>second "), 6);
    assert!(svg.contains("<title>first &lt;&amp;&gt; and second</title>"));
    assert!(!svg.contains("<script") && svg.contains("prefers-color-scheme: dark"));
}

#[test]
fn without_the_key_lanes_are_directions() {
    let folder = folder("picture-plain");
    let entries = exchange();
    let [one, other, key] = files(&folder, &entries, &entries);
    let out = folder.join("out.svg");
    let plain = arguments!["compare", one, other, "--picture", out].to_vec();
    let mut older = plain.clone();
    older.extend_from_slice(arguments!["--method", "aes-128-gcm", "--key-file", key]);
    for arguments in [plain, older] {
        let output = run(&arguments);
        assert_eq!(
            (output.status.code(), &output.stdout[..]),
            (Some(0), &b"entries 5 5\n"[..])
        );
        let svg = fs::read_to_string(&out).unwrap();
        assert_eq!(count(&svg, ">all sessions</text>"), 2);
        assert!(svg.contains(">no entry differs</text>"));
        fs::remove_file(&out).unwrap();
    }
}

#[test]
fn clocks_count_from_each_start() {
    let folder = folder("picture-days");
    let entries = exchange();
    let later: Vec<Entry> = entries
        .iter()
        .cloned()
        .map(|(d, c, b)| (d, c + 86_400, b))
        .collect();
    let [one, other, _] = files(&folder, &entries, &later);
    let out = folder.join("out.svg");
    assert_eq!(
        run(arguments!["compare", one, other, "--picture", out])
            .status
            .code(),
        Some(1)
    );
    let svg = fs::read_to_string(&out).unwrap();
    assert!(svg.contains(">no entry differs on this axis, 5 by their own clocks</text>"));
    assert!(
        svg.contains("from 2023-11-14 22:13:20 UTC") && svg.contains("from 2023-11-15 22:13:20")
    );
}

#[test]
fn odd_recordings_have_a_picture() {
    let folder = folder("picture-odd");
    let wild = [
        (2, u64::MAX, vec![1; 40]),
        (1, 0, vec![2; 300]),
        (0, 1 << 63, vec![]),
    ];
    let many: Vec<Entry> = (0..2_184).map(|clock| (1, clock / 7, vec![])).collect();
    for (first, second) in [(&[][..], &[][..]), (&wild, &many), (&many, &[])] {
        let [one, other, key] = files(&folder, first, second);
        let out = folder.join("out.svg");
        let output = program(arguments![
            "compare",
            one,
            other,
            "--picture",
            out,
            "--method",
            METHOD
        ])
        .env("BHAJNOLITH_KEY", fs::read_to_string(key).unwrap())
        .output()
        .unwrap();
        assert!(output.stderr.is_empty(), "{output:?}");
        let svg = fs::read_to_string(&out).unwrap();
        assert!(svg.ends_with("</svg>\n") && !svg.contains("NaN") && !svg.contains("inf"));
        assert_eq!(count(&svg, "<g><title>"), first.len() + second.len());
    }
}

#[test]
fn a_recording_is_not_drawn_over() {
    let folder = folder("picture-over");
    let [one, other, _] = files(&folder, &exchange(), &exchange());
    let before = fs::read(&one).unwrap();
    let over = arguments![
        "compare",
        one,
        other,
        "--picture",
        folder.join(".").join("first <&>")
    ];
    refused(run(over), "bhajnolith: compare: ");
    assert_eq!(fs::read(&one).unwrap(), before);
    let nowhere = folder.join("missing").join("out.svg");
    refused(
        run(arguments!["compare", one, other, "--picture", nowhere]),
        "bhajnolith: compare: ",
    );
}

#[test]
fn a_key_of_another_length_or_none_is_an_error() {
    let folder = folder("picture-keys");
    let [one, other, key] = files(&folder, &exchange(), &exchange());
    let wrong = arguments![
        "compare",
        one,
        other,
        "--picture",
        folder.join("o"),
        "--method",
        "2022-blake3-aes-256-gcm",
        "--key-file",
        key,
    ];
    refused(run(wrong), "bhajnolith: compare: ");
    let keyless = arguments![
        "compare",
        one,
        other,
        "--picture",
        folder.join("o"),
        "--method",
        METHOD
    ];
    refused(run(keyless), "bhajnolith: compare: --key-file is missing");
}
