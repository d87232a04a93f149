//! What all commands share.

use std::fs;
use std::io::Read;
use std::os::fd::OwnedFd;
use std::os::unix::net::UnixStream;
use std::process::Stdio;

use crate::arguments;
use crate::common::{folder, program, recorded, refused, run, said};

const COMMANDS: [&str; 8] = [
    "serve", "connect", "sessions", "compare", "mend", "plan", "settings", "keygen",
];

#[test]
fn help_is_a_result() {
    let (status, general) = said(run(arguments!["--help"]));
    assert_eq!(status, 0);
    for command in COMMANDS {
        assert!(general.contains(&format!("\n  {command} ")), "{command}");
        let (status, usage) = said(run(arguments![command, "--help"]));
        assert_eq!(status, 0);
        assert!(usage.starts_with(&format!("usage: bhajnolith {command} ")));
    }
    let (status, usage) = said(run(arguments!["settings", "write", "--help"]));
    assert_eq!((status, &usage[..26]), (0, "usage: bhajnolith settings"));
    let version = format!("bhajnolith {}\n", env!("CARGO_PKG_VERSION"));
    assert_eq!(said(run(arguments!["--version"])), (0, version));
}

#[test]
fn the_manual_has_every_option() {
    let manual = include_str!("../../../../docs/bhajnolith.1");
    for command in COMMANDS {
        let (_, usage) = said(run(arguments![command, "--help"]));
        let is_part = |letter: char| letter.is_ascii_lowercase() || letter == '-';
        let words = usage.split(|letter| !is_part(letter));
        for option in words.filter_map(|word| word.strip_prefix("--")) {
            assert!(
                manual.contains(&format!("Fl -{option}")),
                "{command} --{option}"
            );
        }
    }
}

#[test]
fn misuse_is_told_with_where_the_usage_is() {
    let output = run(&[] as &[&str]);
    refused(output, "bhajnolith: no command\n`bhajnolith --help` tells");
    refused(
        run(arguments!["relay"]),
        "bhajnolith: \"relay\" is no command\n",
    );
    for command in COMMANDS {
        let output = run(arguments![command, "--nothing-of-this-name"]);
        let told = String::from_utf8(output.stderr).unwrap();
        assert_eq!(output.status.code(), Some(2), "{told}");
        assert!(
            told.contains(&format!("\n`bhajnolith {command} --help` tells")),
            "{told}"
        );
    }
}

#[test]
fn a_closed_output_ends_it_quietly() {
    let long = arguments![
        "plan",
        "--method",
        "2022-blake3-aes-128-gcm",
        "--target",
        "192.0.2.1:53",
        "--limit",
        "51",
        "--length",
        "1000000",
    ];
    let mut child = program(long)
        .stdout(Stdio::piped())
        .stderr(Stdio::piped())
        .spawn()
        .unwrap();
    let mut out = child.stdout.take().unwrap();
    out.read_exact(&mut [0; 3]).unwrap();
    drop(out);
    let output = child.wait_with_output().unwrap();
    assert_eq!(
        (output.status.code(), &output.stderr[..]),
        (Some(0), &b""[..])
    );
}

#[test]
fn an_answer_that_nobody_reads_stays_the_answer() {
    let folder = folder("unread");
    let [empty, other] = ["empty", "other"].map(|name| folder.join(name));
    fs::write(&empty, recorded(&[])).unwrap();
    fs::write(&other, recorded(&[(0, 1, vec![])])).unwrap();
    for (second, status) in [(&empty, 0), (&other, 1)] {
        let (reader, writer) = UnixStream::pair().unwrap();
        drop(reader);
        let writer = OwnedFd::from(writer);
        let output = program(arguments!["compare", empty, second])
            .stdout(writer)
            .output();
        assert_eq!(output.unwrap().status.code(), Some(status));
    }
}

#[test]
fn an_output_without_room_is_an_error() {
    let full = std::fs::OpenOptions::new()
        .write(true)
        .open("/dev/full")
        .unwrap();
    let output = program(arguments!["--help"]).stdout(full).output().unwrap();
    let told = String::from_utf8(output.stderr).unwrap();
    assert_eq!(output.status.code(), Some(2), "{told}");
    assert!(told.starts_with("bhajnolith: "), "{told}");
}
