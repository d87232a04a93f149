//! A snapshot as text and as JSON.

use std::fmt::Write;

use relay::{Session, Table};

use super::group::{sorted, sums, Groups};
use crate::json::Json;
use crate::status::{Counters, Service, Snapshot, REFUSALS};

/// The refusals in few words, by number; 0 is none.
const NAMES: [&str; REFUSALS] = [
    "accepted",
    "settings",
    "length",
    "room",
    "not authentic",
    "malformed",
    "type",
    "time",
    "replay",
    "full",
    "more",
    "counter",
    "argument",
    "binding",
    "empty",
    "unknown setting",
];

/// What else happened, and how often.
fn events(counters: &Counters) -> [(&'static str, u64); 9] {
    [
        ("forwarded", counters.forwarded),
        ("replied", counters.replied),
        ("unresolved", counters.unresolved),
        ("not_allowed", counters.not_allowed),
        ("too_long", counters.too_long),
        ("too_early", counters.too_early),
        ("not_sent", counters.not_sent),
        ("streams", counters.streams),
        ("streams_refused", counters.streams_refused),
    ]
}

/// Refusals that were given, with their numbers and how often.
fn refusals(counters: &Counters) -> impl Iterator<Item = (usize, u64)> + '_ {
    let answers = counters.answers.iter().copied().enumerate().skip(1);
    answers.filter(|(_, count)| *count > 0)
}

/// Seconds since a session was heard, and until it is forgotten if it stays silent.
fn ages(session: &Session, table: &Table, clock: u64) -> (u64, u64) {
    let end = session.last_time.saturating_add(table.retention());
    (
        clock.saturating_sub(session.last_time),
        end.saturating_sub(clock),
    )
}

/// What a box wrote, without what would move a terminal's place.
fn plain(text: &str) -> String {
    let shown = |letter: char| if letter.is_control() { '?' } else { letter };
    text.chars().map(shown).collect()
}

pub fn to_text(snapshot: &Snapshot, groups: &Groups) -> String {
    let mut text = String::new();
    let up = snapshot.clock.saturating_sub(snapshot.started);
    for (index, service) in snapshot.services.iter().enumerate() {
        if index > 0 {
            text.push('\n');
        }
        text += &header(service, up);
        match &service.table {
            None => text += "the 2017 edition has no sessions\n",
            Some(table) => text += &sessions(table, snapshot.clock, groups),
        }
    }
    let missing = groups.missing(snapshot);
    if !missing.is_empty() {
        text.push('\n');
    }
    for (group, id) in missing {
        text += &format!("{group} {id:016x}: not alive\n");
    }
    if snapshot.not_recorded > 0 {
        text += &format!("\n{} datagrams not recorded\n", snapshot.not_recorded);
    }
    text
}

/// Where a service listens, and its counts.
fn header(service: &Service, up: u64) -> String {
    let counters = &service.counters;
    let (listening, method) = (plain(&service.listening), service.method);
    let refused: Vec<String> = refusals(counters)
        .map(|(number, count)| format!("{} ({number}) {count}", NAMES[number]))
        .collect();
    let refused = match refused.is_empty() {
        true => "none".to_string(),
        false => refused.join(", "),
    };
    let happened = events(counters).into_iter().filter(|(_, count)| *count > 0);
    let events: Vec<String> = happened
        .map(|(name, count)| format!("{} {count}", name.replace('_', " ")))
        .collect();
    let mut text = format!("{listening}, {method}, up {up} s\n");
    let accepted = counters.answers[0];
    text += &format!("accepted {accepted}; refused: {refused}\n");
    if !events.is_empty() {
        text += &format!("{}\n", events.join(", "));
    }
    text
}

/// The columns of a session's line.
type Row = [String; 6];

const HEADINGS: [&str; 6] = [
    "ID",
    "PEER",
    "ACCEPTED",
    "REPEATS",
    "HEARD AGO",
    "ALIVE FOR",
];

/// The sessions of a table, group by group where there are groups.
fn sessions(table: &Table, clock: u64, groups: &Groups) -> String {
    let alive = sorted(table, clock);
    let (count, retention) = (alive.len(), table.retention());
    let mut text = format!("{count} of 64 sessions alive, remembered for {retention} s\n");
    let row = |session: &Session| -> Row {
        let (heard, left) = ages(session, table, clock);
        [
            format!("{:016x}", session.id),
            session.peer.to_string(),
            session.accepted.to_string(),
            session.repeats.to_string(),
            format!("{heard} s"),
            format!("{left} s"),
        ]
    };
    let names: Vec<&str> = groups.names().collect();
    let mut rows = vec![("", HEADINGS.map(String::from))];
    if names.is_empty() {
        rows.extend(alive.iter().map(|session| ("", row(session))));
    }
    for name in names {
        let members = groups.members(name, &alive);
        rows.extend(members.clone().map(|session| (name, row(session))));
        rows.push((name, sum_row(members)));
    }
    if rows.len() > 1 {
        write_rows(&mut text, &rows);
    }
    text
}

/// The line below the sessions of a group.
fn sum_row<'a>(members: impl Iterator<Item = &'a Session> + Clone) -> Row {
    let count = members.clone().count();
    let (accepted, repeats) = sums(members);
    let mut row = Row::default();
    row[0] = format!("sum of {count}");
    row[2] = accepted.to_string();
    row[3] = repeats.to_string();
    row
}

/// Rows with their groups, in columns: ID and peer begin, numbers end at one place.
fn write_rows(text: &mut String, rows: &[(&str, Row)]) {
    let groups = rows.iter().map(|(group, _)| group.len()).max().unwrap_or(0);
    let widths: [usize; 6] = std::array::from_fn(|column| {
        let cells = rows.iter().map(|(_, row)| row[column].chars().count());
        cells.max().unwrap_or(0)
    });
    for (group, row) in rows {
        let mut line = String::new();
        if groups > 0 {
            let _ = write!(line, "{group:groups$}  ");
        }
        for (column, (cell, width)) in row.iter().zip(widths).enumerate() {
            let _ = match column {
                0 => write!(line, "{cell:width$}"),
                1 => write!(line, "  {cell:width$}"),
                _ => write!(line, "  {cell:>width$}"),
            };
        }
        text.push_str(line.trim_end());
        text.push('\n');
    }
}

pub fn to_json(snapshot: &Snapshot, groups: &Groups) -> Json {
    let services = snapshot.services.iter();
    let services = services.map(|service| service_json(service, snapshot.clock, groups));
    let missing = groups.missing(snapshot).into_iter().map(|(group, id)| {
        let id = format!("{id:016x}");
        Json::Object(vec![("group", group.into()), ("id", Json::Text(id))])
    });
    Json::Object(vec![
        ("clock", snapshot.clock.into()),
        ("started", snapshot.started.into()),
        ("not_recorded", snapshot.not_recorded.into()),
        ("services", Json::List(services.collect())),
        ("not_alive", Json::List(missing.collect())),
    ])
}

fn service_json(service: &Service, clock: u64, groups: &Groups) -> Json {
    let counters = &service.counters;
    let refused = refusals(counters).map(|(number, count)| {
        Json::Object(vec![
            ("number", number.into()),
            ("name", NAMES[number].into()),
            ("count", count.into()),
        ])
    });
    let mut members = vec![
        ("listening", service.listening.as_str().into()),
        ("method", service.method.name().into()),
        ("accepted", counters.answers[0].into()),
        ("refused", Json::List(refused.collect())),
    ];
    members.extend(events(counters).map(|(name, count)| (name, count.into())));
    match &service.table {
        None => members.push(("sessions", Json::Null)),
        Some(table) => members.extend(table_json(table, clock, groups)),
    }
    Json::Object(members)
}

fn table_json(table: &Table, clock: u64, groups: &Groups) -> [(&'static str, Json); 3] {
    let alive = sorted(table, clock);
    let sums = groups.names().map(|name| {
        let (accepted, repeats) = sums(groups.members(name, &alive));
        Json::Object(vec![
            ("name", name.into()),
            ("accepted", accepted.into()),
            ("repeats", repeats.into()),
        ])
    });
    let sums = Json::List(sums.collect());
    let sessions = alive.iter();
    let sessions = sessions.map(|session| session_json(session, table, clock, groups));
    [
        ("retention", table.retention().into()),
        ("sessions", Json::List(sessions.collect())),
        ("groups", sums),
    ]
}

fn session_json(session: &Session, table: &Table, clock: u64, groups: &Groups) -> Json {
    let (heard, left) = ages(session, table, clock);
    Json::Object(vec![
        ("id", Json::Text(format!("{:016x}", session.id))),
        ("peer", Json::Text(session.peer.to_string())),
        ("accepted", session.accepted.into()),
        ("repeats", session.repeats.into()),
        ("heard_ago", heard.into()),
        ("alive_for", left.into()),
        ("group", groups.of(session.id).into()),
    ])
}

#[cfg(test)]
mod tests {
    use relay::{sip004, Method, Table};

    use super::{to_json, to_text, Counters, Groups, Service, Snapshot};

    /// ID, last time, port, accepted, repeats.
    type Record = [u64; 5];

    const RECORDS: [Record; 3] = [
        [0xab, 1_000, 4_000, 1_500, 12],
        [0x07, 1_009, 40_000, 9, 0],
        [0xff, 900, 1, 1, 1],
    ];

    fn table() -> Table {
        let mut words = [0; Table::WORDS];
        words[0] = 60;
        let records = words[1..].chunks_exact_mut(13);
        for (record, [id, last_time, port, accepted, repeats]) in records.zip(RECORDS) {
            let peer = [0, 0xffff_c000_0201, port];
            record[..4].copy_from_slice(&[1, id, 0, last_time]);
            record[8..11].copy_from_slice(&peer);
            record[11..].copy_from_slice(&[accepted, repeats]);
        }
        Table::from_words(&words)
    }

    fn snapshot() -> Snapshot {
        let mut counters = Counters {
            forwarded: 1_509,
            not_allowed: 2,
            ..Counters::default()
        };
        counters.answers[0] = 1_511;
        counters.answers[4] = 3;
        counters.answers[8] = 12;
        let service = |listening: &str, method, counters, table| Service {
            listening: listening.to_string(),
            method,
            counters,
            table,
        };
        let older = sip004::Method::Aes256Gcm.into();
        Snapshot {
            clock: 1_010,
            started: 890,
            not_recorded: 0,
            services: vec![
                service(
                    "127.0.0.1:8388",
                    Method::Aes128Gcm.into(),
                    counters,
                    Some(table()),
                ),
                service("[::1]:8389\x1b", older, Counters::default(), None),
            ],
        }
    }

    fn groups(idle: &[u64], loaded: &[u64]) -> Groups {
        Groups::new(Some(idle.to_vec()), Some(loaded.to_vec())).unwrap()
    }

    #[test]
    fn sessions_stand_in_columns_by_id() {
        let text = to_text(&snapshot(), &Groups::new(None, None).unwrap());
        let expected = "\
127.0.0.1:8388, 2022-blake3-aes-128-gcm, up 120 s
accepted 1511; refused: not authentic (4) 3, replay (8) 12
forwarded 1509, not allowed 2
2 of 64 sessions alive, remembered for 60 s
ID                PEER             ACCEPTED  REPEATS  HEARD AGO  ALIVE FOR
0000000000000007  192.0.2.1:40000         9        0        1 s       59 s
00000000000000ab  192.0.2.1:4000       1500       12       10 s       50 s

[::1]:8389?, aes-256-gcm, up 120 s
accepted 0; refused: none
the 2017 edition has no sessions
";
        assert_eq!(text, expected);
    }

    #[test]
    fn named_sessions_stand_together_with_their_sums() {
        let text = to_text(&snapshot(), &groups(&[0xab, 0xff], &[0x1234]));
        for line in [
            "idle    00000000000000ab  192.0.2.1:4000       1500       12       10 s       50 s\n",
            "idle    sum of 1                               1500       12\n",
            "loaded  sum of 0                                  0        0\n",
            "other   0000000000000007  192.0.2.1:40000         9        0        1 s       59 s\n",
            "\nidle 00000000000000ff: not alive\nloaded 0000000000001234: not alive\n",
        ] {
            assert!(text.contains(line), "{text}");
        }
    }

    #[test]
    fn json_has_the_same() {
        let json = to_json(&snapshot(), &groups(&[0xab], &[0xff])).to_string();
        for part in [
            r#"{"clock":1010,"started":890,"not_recorded":0,"services":[{"listening":"127"#,
            r#""refused":[{"number":4,"name":"not authentic","count":3},{"number":8,"#,
            r#""not_allowed":2,"too_long":0,"#,
            r#""retention":60,"sessions":[{"id":"0000000000000007","peer":"192.0.2.1:40000","#,
            r#""accepted":9,"repeats":0,"heard_ago":1,"alive_for":59,"group":"other"},"#,
            r#""groups":[{"name":"idle","accepted":1500,"repeats":12},{"name":"loaded","accepted":0"#,
            r#""listening":"[::1]:8389\u001b","method":"aes-256-gcm","#,
            r#""streams_refused":0,"sessions":null}]"#,
            r#""not_alive":[{"group":"loaded","id":"00000000000000ff"}]}"#,
        ] {
            assert!(json.contains(part), "{part} in {json}");
        }
    }
}
