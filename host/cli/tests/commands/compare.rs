//! `compare` without pictures.

use std::fs;
use std::path::PathBuf;

use crate::arguments;
use crate::common::{folder, recorded, refused, run, said, Entry};

/// Two entries against three, the second differing at byte 17.
fn example(name: &str) -> [PathBuf; 2] {
    let body: Vec<u8> = (0..40).collect();
    let mut changed = body.clone();
    changed[17] = 0xee;
    let first: [Entry; 2] = [(0, 1, b"hello".to_vec()), (1, 2, body)];
    let second = [first[0].clone(), (1, 2, changed), (2, 3, vec![])];
    let folder = folder(name);
    let files = ["first", "second"].map(|name| folder.join(name));
    fs::write(&files[0], recorded(&first)).unwrap();
    fs::write(&files[1], recorded(&second)).unwrap();
    files
}

#[test]
fn differences_are_told_with_status_1() {
    let [first, second] = example("compare");
    let told = "entries 2 3\ndiffer 1 byte 17\nsecond-only 2\n";
    assert_eq!(
        said(run(arguments!["compare", first, second])),
        (1, told.to_string())
    );
    let told = "entries 3 3\n";
    assert_eq!(
        said(run(arguments!["compare", second, second])),
        (0, told.to_string())
    );
}

#[test]
fn json_has_the_same() {
    let [first, second] = example("compare-json");
    let told = "{\"entries\":[2,3],\"differences\":[\
                {\"kind\":\"differ\",\"index\":1,\"byte\":17},\
                {\"kind\":\"second-only\",\"index\":2}]}\n";
    let output = run(arguments!["compare", "--json", first, second]);
    assert_eq!(said(output), (1, told.to_string()));
    let told = "{\"entries\":[2,2],\"differences\":[]}\n";
    let output = run(arguments!["compare", first, first, "--json"]);
    assert_eq!(said(output), (0, told.to_string()));
}

#[test]
fn what_is_no_recording_is_refused_by_name() {
    let [good, _] = example("compare-odd");
    let folder = good.parent().unwrap();
    let file = |name: &str, bytes: &[u8]| {
        let path = folder.join(name);
        fs::write(&path, bytes).unwrap();
        path
    };
    let (long, ill) = (file("long", &[0; 32_769]), file("ill", b"\0\0\0\x01"));
    let longest = file("longest", &[0; 32_768]);
    let begin = |path: &PathBuf, why| format!("bhajnolith: compare: {}: {why}", path.display());
    let (too_long, ill_formed) = (
        begin(&long, "refused 2: over"),
        begin(&ill, "refused 5: no"),
    );
    refused(run(arguments!["compare", good, long]), &too_long);
    refused(run(arguments!["compare", ill, long]), &too_long);
    refused(run(arguments!["compare", ill, good]), &ill_formed);
    refused(run(arguments!["compare", good, ill]), &ill_formed);
    refused(
        run(arguments!["compare", good, "/dev/zero"]),
        "bhajnolith: compare: /dev/zero: refused 2",
    );
    let missing = folder.join("missing");
    refused(
        run(arguments!["compare", missing, good]),
        &begin(&missing, ""),
    );
    refused(
        run(arguments!["compare", folder, good]),
        "bhajnolith: compare: ",
    );
    assert_eq!(
        run(arguments!["compare", longest, longest]).status.code(),
        Some(0)
    );
}

#[test]
fn misuse_is_told() {
    let [first, second] = example("compare-misuse");
    for (arguments, why) in [
        (arguments!["compare", first].to_vec(), "SECOND is missing"),
        (arguments!["compare", first, second, second].to_vec(), "\""),
        (
            arguments![
                "compare",
                first,
                second,
                "--method",
                "aes-128-gcm",
                "--key-file",
                "k"
            ]
            .to_vec(),
            "--method and --key-file are for --opened and --picture",
        ),
        (
            arguments![
                "compare",
                first,
                second,
                "--picture",
                "o",
                "--key-file",
                "k"
            ]
            .to_vec(),
            "--method is missing",
        ),
    ] {
        refused(run(&arguments), &format!("bhajnolith: compare: {why}"));
    }
}
