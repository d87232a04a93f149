//! The declarations and numbers of this crate are those of `include/relay.h`.

use std::collections::HashMap;
use std::fs;
use std::path::Path;

use crate::{
    answer, recording, settings, sip004, Method, Nonce, Pool, Refusal, SealSession, Table,
    MAX_CHUNK, MAX_DATAGRAM,
};

/// The header without its comments.
fn header() -> String {
    let path = Path::new(env!("CARGO_MANIFEST_DIR")).join("../../include/relay.h");
    let text = fs::read_to_string(path).expect("the header is in the repository");
    let mut code = String::new();
    for part in text.split("/*") {
        code += part.split_once("*/").map_or(part, |(_, code)| code);
    }
    code
}

/// The header's `#define`s with a value.
fn defines() -> HashMap<String, String> {
    let mut values = HashMap::new();
    for line in header().lines() {
        let words: Vec<&str> = line.split_whitespace().collect();
        if let ["#define", name, value] = words[..] {
            values.insert(name.to_string(), value.to_string());
        }
    }
    values
}

/// Those whose value is a number.
fn numbers() -> HashMap<String, u64> {
    defines()
        .into_iter()
        .filter_map(|(name, value)| Some((name, value.parse().ok()?)))
        .collect()
}

/// What stands in parentheses behind each function's name, less `relay_`. A
/// declaration begins with its return type, or with `fn`.
fn parameters(code: &str, begin: &str) -> HashMap<String, String> {
    code.split(&format!("{begin} relay_"))
        .skip(1)
        .filter_map(|declaration| declaration.split_once(')')?.0.split_once('('))
        .map(|(name, parameters)| (name.to_string(), parameters.to_string()))
        .collect()
}

/// A parameter of C in Rust's words: `const uint8_t *key` is `key: *const u8`.
fn in_rust(parameter: &str) -> String {
    let (kind, name) = parameter
        .rsplit_once([' ', '*'])
        .expect("a type and a name");
    let pointer = parameter.contains('*');
    let kind = match (kind.trim_end_matches([' ', '*']), pointer) {
        ("const uint8_t", true) => "*const u8",
        ("uint8_t", true) => "*mut u8",
        ("const uint64_t", true) => "*const u64",
        ("uint64_t", true) => "*mut u64",
        ("uint64_t", false) => "u64",
        ("uint16_t", false) => "u16",
        ("size_t", false) => "usize",
        other => panic!("a type that was not met before: {other:?}"),
    };
    format!("{name}: {kind}")
}

fn list(parameters: &str) -> Vec<String> {
    parameters
        .split(',')
        .map(|parameter| parameter.split_whitespace().collect::<Vec<_>>().join(" "))
        .filter(|parameter| !parameter.is_empty())
        .collect()
}

#[test]
fn every_function_is_declared_as_in_the_header() {
    let in_header = parameters(&header(), "uint64_t");
    let here = parameters(include_str!("../ffi.rs"), "fn");
    assert_eq!(in_header.len(), 26);
    assert_eq!(here.len(), in_header.len());
    for (name, parameters) in in_header {
        let expected: Vec<String> = list(&parameters).iter().map(|p| in_rust(p)).collect();
        assert_eq!(list(&here[&name]), expected, "{name}");
    }
}

#[test]
fn sizes_are_the_headers() {
    let numbers = numbers();
    for (name, size) in [
        ("TABLE_WORDS", Table::WORDS),
        ("POOL_WORDS", Pool::WORDS),
        ("SESSION_WORDS", SealSession::WORDS),
        ("STREAM_WORDS", super::STREAM_WORDS),
        ("ANSWER_WORDS", answer::WORDS),
        ("NONCE_BYTES", Nonce::LENGTH),
        ("MAX_DATAGRAM", MAX_DATAGRAM),
        ("MAX_CHUNK", MAX_CHUNK),
        ("SIP004_MAX_CHUNK", sip004::MAX_CHUNK),
        ("MAX_COMPARED", recording::MAX_COMPARED),
        ("CHANGE_WORDS", recording::Change::WORDS),
        ("MIN_SETTINGS", settings::MIN_FILE),
        ("MAX_SETTINGS", settings::MAX_FILE),
        ("SETTING_METHOD", settings::METHOD.into()),
        ("SETTING_RETENTION", settings::RETENTION.into()),
        ("SETTING_LIMIT", settings::LIMIT.into()),
        ("SETTING_TARGET", settings::TARGET.into()),
        ("SETTING_SKIPPED", settings::FIRST_SKIPPED.into()),
    ] {
        assert_eq!(numbers[&format!("RELAY_{name}")], size as u64, "{name}");
    }
}

#[test]
fn the_version_is_the_headers() {
    let quoted = format!("{:?}", env!("CARGO_PKG_VERSION"));
    assert_eq!(defines()["RELAY_VERSION"], quoted);
}

#[test]
fn methods_and_refusals_have_the_headers_numbers() {
    let (numbers, header) = (numbers(), header());
    let names: Vec<&str> = header.split("case RELAY_REFUSED_").skip(1).collect();
    assert_eq!(names.len(), 15);
    for method in Method::ALL {
        let name = method.name().trim_start_matches("2022-blake3-");
        let name = name.to_uppercase().replace('-', "_");
        assert_eq!(numbers[&format!("RELAY_{name}")], method.number());
    }
    for method in sip004::Method::ALL {
        let name = method.name().to_uppercase().replace('-', "_");
        assert_eq!(numbers[&format!("RELAY_SIP004_{name}")], method.number());
    }
    for (name, refusal) in [
        ("SETTINGS", Refusal::Settings),
        ("LENGTH", Refusal::Length),
        ("ROOM", Refusal::Room),
        ("NOT_AUTHENTIC", Refusal::NotAuthentic),
        ("MALFORMED", Refusal::Malformed),
        ("TYPE", Refusal::Type),
        ("TIME", Refusal::Time),
        ("REPLAY", Refusal::Replay),
        ("FULL", Refusal::Full),
        ("MORE", Refusal::More { wanted: 0 }),
        ("COUNTER", Refusal::Counter),
        ("ARGUMENT", Refusal::Argument),
        ("BINDING", Refusal::Binding),
        ("EMPTY", Refusal::Empty),
        ("UNKNOWN_SETTING", Refusal::UnknownSetting { number: 0 }),
    ] {
        let number = refusal.number();
        assert_eq!(numbers[&format!("RELAY_REFUSED_{name}")], number);
        // In words, as relay_refusal_name gives it.
        let words: Vec<&str> = names[number as usize - 1].split('"').collect();
        assert!(words[0].starts_with(&format!("{name}:")), "{name}");
        assert_eq!(words[1], name.to_lowercase().replace('_', " "));
    }
}

/// Headers are read by the order of their words, so that order is what counts.
#[test]
fn answers_have_the_headers_order() {
    let numbers = numbers();
    let datagram = [
        "KIND",
        "FIRST",
        "SECOND",
        "PORT",
        "SESSION_ID",
        "PACKET_ID",
        "TIMESTAMP",
        "PADDING",
        "PAYLOAD",
    ];
    let request = [
        "KIND",
        "FIRST",
        "SECOND",
        "PORT",
        "HEAD_PADDING",
        "HEAD_PAYLOAD",
        "HEAD_USED",
        "HEAD_LENGTH",
    ];
    let settings = [
        "EDITION",
        "SET",
        "METHOD",
        "RETENTION",
        "LIMIT",
        "TARGET_KIND",
        "TARGET_FIRST",
        "TARGET_SECOND",
        "TARGET_PORT",
    ];
    let places = |names: &[&str]| -> Vec<u64> {
        let numbers = names
            .iter()
            .map(|name| numbers[&format!("RELAY_AT_{name}")]);
        numbers.collect()
    };
    assert!(places(&datagram).into_iter().eq(0..9));
    assert!(places(&request).into_iter().eq(0..8));
    assert!(places(&settings).into_iter().eq(0..9));
    assert_eq!(places(&["SETTING", "FILE_LENGTH"]), [0, 0]);
    assert_eq!(
        places(&[
            "USED",
            "CHUNK_LENGTH",
            "HEAD_TIME",
            "SEALED_LENGTH",
            "PLAINTEXT_LENGTH",
            "WANTED"
        ]),
        [0, 1, 2, 0, 0, 0]
    );
    assert_eq!(places(&["DATAGRAMS", "GOOD"]), [0, 0]);
}

#[test]
fn streams_have_the_headers_turns() {
    let numbers = numbers();
    let words = ["STREAM_TURN", "STREAM_METHOD", "STREAM_COUNTER"];
    let turns = [
        "TURN_ENDED",
        "TURN_LENGTH",
        "TURN_PAYLOAD",
        "TURN_SEALING",
        "TURN_VARIABLE",
    ];
    let value = |name: &&str| numbers[&format!("RELAY_{name}")];
    assert!(words.iter().map(value).eq(0..3));
    assert!(turns.iter().map(value).eq(0..5));
}
