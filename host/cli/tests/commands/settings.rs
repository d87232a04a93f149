//! `settings`.

use std::fs;
use std::path::Path;
use std::process::Output;

use crate::arguments;
use crate::common::{folder, refused, run, said, whole};

fn settings(action: &str, file: &Path, more: &[&str]) -> Output {
    let mut arguments = arguments!["settings", action, file].to_vec();
    arguments.extend(more.iter().map(std::ffi::OsString::from));
    run(&arguments)
}

const ALL: [&str; 10] = [
    "--edition",
    "7",
    "--method",
    "2022-blake3-chacha20-poly1305",
    "--retention",
    "60",
    "--limit",
    "1500",
    "--target",
    "example.com:443",
];

#[test]
fn what_is_written_is_shown() {
    let folder = folder("settings");
    let file = folder.join("box");
    assert_eq!(said(settings("write", &file, &ALL)), (0, String::new()));
    let shown = "edition 7\nmethod 2022-blake3-chacha20-poly1305\nretention 60\nlimit 1500\n\
                 target example.com:443\n";
    assert_eq!(said(settings("show", &file, &[])), (0, shown.to_string()));
    let json = "{\"edition\":7,\"method\":\"2022-blake3-chacha20-poly1305\",\"retention\":60,\
                \"limit\":1500,\"target\":\"example.com:443\"}\n";
    assert_eq!(
        said(settings("show", &file, &["--json"])),
        (0, json.to_string())
    );
    assert_eq!(said(settings("check", &file, &[])), (0, String::new()));
    // It is replaced as a whole.
    let less = ["--edition", "8", "--method", "aes-192-gcm"];
    assert_eq!(said(settings("write", &file, &less)), (0, String::new()));
    let shown = "edition 8\nmethod aes-192-gcm\n";
    assert_eq!(said(settings("show", &file, &[])), (0, shown.to_string()));
    let json = "{\"edition\":8,\"method\":\"aes-192-gcm\",\"retention\":null,\"limit\":null,\
                \"target\":null}\n";
    assert_eq!(
        said(settings("show", &file, &["--json"])),
        (0, json.to_string())
    );
    assert_eq!(fs::read_dir(&folder).unwrap().count(), 1);
}

#[test]
fn settings_of_newer_boxes_are_taken_from_files() {
    let folder = folder("settings-other");
    let (file, body) = (folder.join("box"), folder.join("a=b"));
    fs::write(&body, b"for a newer box").unwrap();
    let other = |number: &str| format!("--other={number}={}", body.display());
    let two = [other("300"), other("128")];
    let more = ["--edition", "1", &two[0], &two[1]];
    assert_eq!(said(settings("write", &file, &more)), (0, String::new()));
    let bytes = fs::read(&file).unwrap();
    assert_eq!(
        (&bytes[..4], bytes.len()),
        (&[0, 1, 0, 2][..], 4 + 2 * 6 + 2 * 15 + 32)
    );
    assert_eq!(
        said(settings("show", &file, &[])),
        (0, "edition 1\n".to_string())
    );
    for (number, why) in [
        ("127", "setting 127: refused 12"),
        ("x", "--other wants NUMBER=FILE"),
    ] {
        let more = ["--edition", "1", &other(number)];
        refused(
            settings("write", &file, &more),
            &format!("bhajnolith: settings: {why}"),
        );
    }
    let twice = ["--edition", "1", &other("300"), &other("300")];
    let begins = "bhajnolith: settings: the settings together: refused 12";
    refused(settings("write", &file, &twice), begins);
    fs::write(&body, vec![0; 70_000]).unwrap();
    let more = ["--edition", "1", &other("300")];
    let begins = "bhajnolith: settings: setting 300: refused 2";
    refused(settings("write", &file, &more), begins);
    assert_eq!(fs::read(&file).unwrap(), bytes);
}

#[test]
fn damage_is_refused_by_number() {
    let file = folder("settings-odd").join("box");
    settings("write", &file, &ALL);
    let good = fs::read(&file).unwrap();
    let mut damaged = good.clone();
    damaged[10] ^= 1;
    for (bytes, number) in [
        (&damaged[..], 4),
        (&good[..35], 2),
        (&[0; 65_536], 2),
        (&[], 2),
    ] {
        fs::write(&file, bytes).unwrap();
        let begins = format!(
            "bhajnolith: settings: {}: refused {number}: ",
            file.display()
        );
        refused(settings("show", &file, &[]), &begins);
        let (status, out, error) = whole(settings("check", &file, &[]));
        assert_eq!((status, out.as_str()), (1, ""));
        assert!(error.starts_with(&begins), "{error}");
    }
}

#[test]
fn errors_of_the_host_have_status_2() {
    let folder = folder("settings-host");
    let missing = folder.join("missing");
    for action in ["show", "check"] {
        refused(settings(action, &missing, &[]), "bhajnolith: settings: ");
        refused(settings(action, &folder, &[]), "bhajnolith: settings: ");
    }
    let deep = missing.join("box");
    refused(settings("write", &deep, &ALL), "bhajnolith: settings: ");
    refused(settings("write", &folder, &ALL), "bhajnolith: settings: ");
    refused(
        settings("write", "/dev/null".as_ref(), &ALL),
        "bhajnolith: settings: /dev/null: ",
    );
}

#[test]
fn misuse_is_told() {
    let missing = folder("settings-misuse").join("missing");
    for (more, why) in [
        (&[][..], "--edition is missing"),
        (&["--edition", "65536"], "--edition 65536: "),
        (
            &["--edition", "1", "--retention", "59"],
            "setting 2: refused 12: ",
        ),
        (
            &["--edition", "1", "--limit", "65508"],
            "setting 3: refused 12: ",
        ),
        (&["--edition", "1", "--method", "none"], "--method none: "),
        (
            &["--edition", "1", "--target", "nowhere"],
            "--target nowhere: ",
        ),
    ] {
        let begins = format!("bhajnolith: settings: {why}");
        refused(settings("write", &missing, more), &begins);
    }
    assert!(!missing.exists());
    refused(
        settings("shown", &missing, &[]),
        "bhajnolith: settings: show, check or write",
    );
    refused(
        run(arguments!["settings"]),
        "bhajnolith: settings: show, check or write",
    );
}
