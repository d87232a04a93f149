//! `sessions`, of a box that is played here.

use std::io::{BufRead, BufReader, Write};
use std::os::unix::net::UnixListener;
use std::path::PathBuf;
use std::process::Stdio;
use std::thread;

use relay::{Method, Table};

use crate::arguments;
use crate::common::{folder, program, refused, run, said};

/// The snapshot of a box with one service and session 7, as words.
fn snapshot(clock: u64) -> Vec<u8> {
    let magic = u64::from_be_bytes(*b"bhajst01");
    let mut words = vec![magic, clock, 900, 0, 1];
    words.extend([
        8,
        u64::from_be_bytes(*b"here:838"),
        Method::Aes256Gcm.number(),
    ]);
    words.extend([2, 0, 0, 0, 0, 0, 0, 0, 1, 0, 0, 0, 0, 0, 0, 0]);
    words.extend([0; 9]);
    let mut table = [0; Table::WORDS];
    table[0] = 60;
    table[1..5].copy_from_slice(&[1, 7, 0, 1_000]);
    table[9..14].copy_from_slice(&[0, 1, 4_000, 2, 1]);
    words.extend(table);
    words.into_iter().flat_map(u64::to_be_bytes).collect()
}

/// A box that answers so many times, each a second later, and is then gone.
fn played(name: &str, times: u64) -> PathBuf {
    let socket = folder(name).join("status");
    let listener = UnixListener::bind(&socket).unwrap();
    thread::spawn(move || {
        for time in 0..times {
            let (mut stream, _) = listener.accept().unwrap();
            stream.write_all(&snapshot(1_000 + time)).unwrap();
        }
    });
    socket
}

const TEXT: &str = "\
here:838, 2022-blake3-aes-256-gcm, up 100 s
accepted 2; refused: replay (8) 1
1 of 64 sessions alive, remembered for 60 s
ID                PEER        ACCEPTED  REPEATS  HEARD AGO  ALIVE FOR
0000000000000007  [::1]:4000         2        1        0 s       60 s
";

#[test]
fn the_sessions_of_a_box_are_shown() {
    let socket = played("sessions", 3);
    let (status, text) = said(run(arguments!["sessions", socket]));
    assert_eq!((status, text.as_str()), (0, TEXT));
    let (status, json) = said(run(arguments!["sessions", socket, "--json"]));
    assert_eq!((status, json.lines().count()), (0, 1));
    assert!(json.contains("\"id\":\"0000000000000007\",\"peer\":\"[::1]:4000\""));
    let named = ["--idle=0000000000000007", "--loaded", "00000000000000ff"];
    let (status, text) = said(run(arguments![
        "sessions", socket, named[0], named[1], named[2]
    ]));
    assert_eq!(status, 0);
    assert!(text.contains("\nidle    0000000000000007  "), "{text}");
    assert!(
        text.ends_with("\nloaded 00000000000000ff: not alive\n"),
        "{text}"
    );
}

/// The output of a watcher up to so many lines, whereupon it is ended.
fn watched(socket: &PathBuf, more: &str, lines: usize) -> Vec<String> {
    let mut child = program(arguments!["sessions", socket, "--watch", "1", more])
        .stdout(Stdio::piped())
        .spawn()
        .unwrap();
    let out = BufReader::new(child.stdout.take().unwrap());
    let lines = out.lines().take(lines).collect::<Result<_, _>>();
    child.kill().unwrap();
    child.wait().unwrap();
    lines.unwrap()
}

#[test]
fn a_watched_box_is_shown_again() {
    let [text, json] = ["watch", "watch-json"].map(|name| played(name, 2));
    let json = thread::spawn(move || watched(&json, "--json", 2));
    let shown = watched(&text, "--idle=0000000000000007", 9);
    assert_eq!(
        shown[..2],
        ["here:838, 2022-blake3-aes-256-gcm, up 100 s", &shown[1]]
    );
    assert_eq!(
        shown[7..],
        ["", "here:838, 2022-blake3-aes-256-gcm, up 101 s"]
    );
    let shown = json.join().unwrap();
    assert!(shown[0].starts_with("{\"clock\":1000,") && shown[1].starts_with("{\"clock\":1001,"));
}

#[test]
fn a_watched_box_that_is_gone_is_an_error() {
    let socket = played("watch-gone", 1);
    let output = run(arguments!["sessions", socket, "--watch=1"]);
    assert_eq!(
        (output.status.code(), output.stdout),
        (Some(2), TEXT.into())
    );
    assert!(output.stderr.starts_with(b"bhajnolith: sessions: "));
}

#[test]
fn what_is_no_box_is_an_error() {
    let folder = folder("no-box");
    let socket = folder.join("status");
    refused(
        run(arguments!["sessions", socket]),
        "bhajnolith: sessions: ",
    );
    refused(
        run(arguments!["sessions", folder]),
        "bhajnolith: sessions: ",
    );
    let listener = UnixListener::bind(&socket).unwrap();
    let cut = snapshot(1_000).len() - 1;
    let odd = [
        vec![],
        b"bhajst02".to_vec(),
        vec![0xff; 9_000],
        snapshot(1_000)[..cut].to_vec(),
    ];
    let count = odd.len();
    thread::spawn(move || {
        for bytes in odd {
            let (mut stream, _) = listener.accept().unwrap();
            // The program may have gone away at the first word.
            let _ = stream.write_all(&bytes);
        }
    });
    for _ in 0..count {
        let begins = format!("bhajnolith: sessions: {}: ", socket.display());
        refused(run(arguments!["sessions", socket]), &begins);
    }
}

#[test]
fn misuse_is_told() {
    let id = "0000000000000007";
    for (arguments, why) in [
        (arguments!["sessions"].to_vec(), "SOCKET is missing"),
        (
            arguments!["sessions", "s", "--watch", "0"].to_vec(),
            "--watch wants 1 second",
        ),
        (
            arguments!["sessions", "s", "--idle", "7"].to_vec(),
            "--idle 7: an ID has 16",
        ),
        (
            arguments!["sessions", "s", "--idle", id, "--loaded", id].to_vec(),
            "0000000000000007 is named as idle and as loaded",
        ),
    ] {
        refused(run(&arguments), &format!("bhajnolith: sessions: {why}"));
    }
}
