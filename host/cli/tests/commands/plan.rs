//! `plan`.

use std::fs;
use std::process::Output;

use crate::arguments;
use crate::common::{folder, refused, run, said, whole};

const METHOD: &str = "2022-blake3-aes-128-gcm";

fn plan(limit: &str, length: &str, more: &[&str]) -> Output {
    let mut arguments = vec!["plan", "--method", METHOD, "--target", "192.0.2.1:53"];
    arguments.extend(["--limit", limit, "--length", length]);
    arguments.extend(more);
    run(&arguments)
}

#[test]
fn a_line_for_each_datagram() {
    assert_eq!(
        said(plan("1500", "2901", &[])),
        (0, "1450 0\n1450 0\n1 0\n".to_string())
    );
    assert_eq!(said(plan("1500", "0", &[])), (0, String::new()));
    let json = "{\"datagrams\":2,\"pieces\":[{\"length\":1450,\"padding\":0},\
                {\"length\":50,\"padding\":0}]}\n";
    assert_eq!(
        said(plan("1500", "1500", &["--json"])),
        (0, json.to_string())
    );
}

#[test]
fn what_it_prints_is_good() {
    let file = folder("plan").join("plan");
    let path = file.to_str().unwrap();
    fs::write(&file, plan("1500", "2901", &[]).stdout).unwrap();
    let check = |length: &str, more: &[&str]| {
        let more: Vec<&str> = ["--check", path].iter().chain(more).copied().collect();
        plan("1500", length, &more)
    };
    assert_eq!(said(check("2901", &[])), (0, String::new()));
    assert_eq!(said(check("2902", &[])), (1, String::new()));
    assert_eq!(
        said(check("2901", &["--json"])),
        (0, "{\"good\":true}\n".to_string())
    );
    assert_eq!(
        said(check("2902", &["--json"])),
        (1, "{\"good\":false}\n".to_string())
    );
    for (text, why) in [
        (&b"1450 0\n1450\n"[..], "line 2 is no length and padding"),
        (b"\n", "line 1 is no"),
        (b"1450 0\n\xff 0\n", "no text"),
    ] {
        fs::write(&file, text).unwrap();
        refused(
            check("2901", &[]),
            &format!("bhajnolith: plan: {path}: {why}"),
        );
    }
    let more = ["--check", "/dev/zero"];
    refused(plan("1500", "2901", &more), "bhajnolith: plan: /dev/zero: ");
}

#[test]
fn wild_numbers_end_with_a_refusal() {
    refused(plan("65508", "1", &[]), "bhajnolith: plan: refused 12: ");
    refused(plan("50", "1", &[]), "bhajnolith: plan: refused 12: ");
    for length in ["1152921504606846976", "18446744073709551615"] {
        refused(
            plan("1500", length, &[]),
            "bhajnolith: plan: refused 3: more than 1048576",
        );
    }
    let (status, out, _) = whole(plan("51", "1048576", &[]));
    assert_eq!((status, out.lines().count()), (0, 1_048_576));
    refused(plan("51", "1048577", &[]), "bhajnolith: plan: refused 3: ");
}

#[test]
fn misuse_is_told() {
    refused(plan("1500", "-1", &[]), "bhajnolith: plan: --length -1: ");
    refused(
        plan("1500", "18446744073709551616", &[]),
        "bhajnolith: plan: --length ",
    );
    refused(
        run(arguments!["plan"]),
        "bhajnolith: plan: --method is missing",
    );
    let older = arguments!["plan", "--method", "aes-128-gcm"];
    refused(
        run(older),
        "bhajnolith: plan: aes-128-gcm is of the 2017 edition",
    );
    let nowhere = arguments!["plan", "--method", METHOD, "--target", "example.com"];
    refused(run(nowhere), "bhajnolith: plan: --target example.com: ");
}
