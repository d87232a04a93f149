//! Recordings side by side, and mended.

use relay::recording::{compare, compare_into, entries, mend, mend_into};
use relay::recording::{Change, Field, MAX_COMPARED};
use relay::Refusal;

/// Direction, clock and body.
type Entry<'a> = (u8, u64, &'a [u8]);

fn recorded(entries: &[Entry]) -> Vec<u8> {
    let mut place = 4 + 15 * entries.len();
    let mut contents = (entries.len() as u32).to_be_bytes().to_vec();
    let mut bodies: Vec<u8> = Vec::new();
    for &(direction, clock, body) in entries {
        contents.extend((place as u32).to_be_bytes());
        contents.extend((body.len() as u16).to_be_bytes());
        contents.push(direction);
        contents.extend(clock.to_be_bytes());
        bodies.extend(body);
        place += body.len();
    }
    contents.extend(bodies);
    contents
}

/// Two entries against three, the second differing at byte 17.
fn example() -> (Vec<u8>, Vec<u8>) {
    let body: Vec<u8> = (0..40).collect();
    let mut changed = body.clone();
    changed[17] = 0xee;
    (
        recorded(&[(0, 1, b"hello"), (1, 2, &body)]),
        recorded(&[(0, 1, b"hello"), (1, 2, &changed), (2, 3, b"")]),
    )
}

#[test]
fn the_differences_of_the_example_are_listed() {
    let (first, second) = example();
    let text = "entries 2 3\ndiffer 1 byte 17\nsecond-only 2\n";
    assert_eq!(compare(&first, &second).unwrap(), text);
    let other_way = "entries 3 2\ndiffer 1 byte 17\nfirst-only 2\n";
    assert_eq!(compare(&second, &first).unwrap(), other_way);
}

#[test]
fn the_first_that_fits_is_told() {
    let one = recorded(&[(0, 1, b"ab")]);
    let told = |other: Entry| compare(&one, &recorded(&[other])).unwrap();
    assert_eq!(told((0, 1, b"ab")), "entries 1 1\n");
    assert_eq!(told((1, 2, b"abc")), "entries 1 1\nlength 0 2 3\n");
    assert_eq!(told((1, 1, b"xy")), "entries 1 1\nmeta 0\n");
    assert_eq!(told((0, 2, b"xy")), "entries 1 1\nmeta 0\n");
    assert_eq!(told((0, 1, b"xy")), "entries 1 1\ndiffer 0 byte 0\n");
}

#[test]
fn bytes_behind_the_last_body_are_not_compared() {
    let one = recorded(&[(0, 1, b"ab")]);
    let behind = [&one[..], b"tail"].concat();
    assert_eq!(compare(&one, &behind).unwrap(), "entries 1 1\n");
}

#[test]
fn either_too_long_comes_before_either_ill_formed() {
    let (good, ill) = (recorded(&[]), b"abc");
    let long = vec![0; MAX_COMPARED + 1];
    assert_eq!(compare(&good, &long), Err(Refusal::Length));
    assert_eq!(compare(ill, &long), Err(Refusal::Length));
    assert_eq!(compare(&long, ill), Err(Refusal::Length));
    assert_eq!(compare(&good, ill), Err(Refusal::Malformed));
    assert_eq!(compare(ill, &good), Err(Refusal::Malformed));
    assert_eq!(compare(&good, &long[1..]).unwrap(), "entries 0 0\n");
}

#[test]
fn the_room_is_exact_and_a_refusal_writes_nothing() {
    let (first, second) = example();
    let text = compare(&first, &second).unwrap();
    let mut out = vec![0x5a; text.len() + 3];
    let short = &mut out[..text.len() - 1];
    assert_eq!(compare_into(&first, &second, short), Err(Refusal::Room));
    assert!(out.iter().all(|&byte| byte == 0x5a));
    let exact = &mut out[..text.len()];
    assert_eq!(compare_into(&first, &second, exact), Ok(text.len()));
    assert_eq!(out, [text.as_bytes(), &[0x5a; 3]].concat());
}

#[test]
fn the_most_entries_that_a_file_holds_are_compared() {
    let clocks = |step: u64| -> Vec<u8> {
        let entries: Vec<Entry> = (0..2_184).map(|i| (1, i + step, &b""[..])).collect();
        recorded(&entries)
    };
    let text = compare(&clocks(0), &clocks(1)).unwrap();
    assert_eq!(text.lines().count(), 1 + 2_184);
    assert_eq!(text.lines().last(), Some("meta 2183"));
}

#[test]
fn the_entries_that_were_recorded_are_read() {
    let recorded_entries: [Entry; 4] = [
        (0, 1, b"hello"),
        (1, u64::MAX, b""),
        (2, 0, &[0xff; 300]),
        (0, 1 << 63, b"x"),
    ];
    let file = [recorded(&recorded_entries), b"tail".to_vec()].concat();
    let read: Vec<Entry> = entries(&file)
        .unwrap()
        .map(|entry| (entry.direction, entry.clock, entry.body))
        .collect();
    assert_eq!(read, recorded_entries);
    assert_eq!(entries(&recorded(&[])).unwrap().count(), 0);
    let most: Vec<Entry> = (0..2_184).map(|clock| (0, clock, &b""[..])).collect();
    assert_eq!(entries(&recorded(&most)).unwrap().count(), 2_184);
}

#[test]
fn entries_of_no_recording_are_refused() {
    let good = recorded(&[(0, 1, b"ab"), (1, 2, b"cd")]);
    for length in 0..good.len() {
        let refused = entries(&good[..length]).err();
        assert_eq!(refused, Some(Refusal::Malformed), "{length} bytes");
    }
    // Whatever a byte of the contents says, the file is read or refused.
    for place in 0..good.len() {
        for byte in 0..=255 {
            let mut file = good.clone();
            file[place] = byte;
            let count = entries(&file).map(Iterator::count);
            let expected = [Ok(usize::from(file[3])), Err(Refusal::Malformed)];
            assert!(expected.contains(&count), "{count:?}");
        }
    }
    let long = vec![0; MAX_COMPARED + 1];
    assert_eq!(entries(&long).err(), Some(Refusal::Length));
}

#[test]
fn a_scrambled_recording_is_mended() {
    let good = recorded(&[(0, 1, b"ab"), (2, 3, b"c")]);
    let mut file = good.clone();
    file[3] = 9; // the count
    file[7] = 0; // the first offset
    file[14] = 3; // in the first clock, which stays
    file[25] = 200; // the second direction
    let changes = mend(&mut file).unwrap();
    let told = |field, old, new| Change { field, old, new };
    assert_eq!(
        changes,
        [
            told(Field::Count, 9, 2),
            told(Field::Offset(0), 0, 34),
            told(Field::Direction(1), 200, 2),
        ]
    );
    assert_eq!(changes[1].to_string(), "entry 0: offset 0 is now 34");
    let mut expected = good;
    expected[14] = 3;
    assert_eq!(file, expected);
    assert_eq!(mend(&mut file).unwrap(), []);
    assert_eq!(compare(&file, &file).unwrap(), "entries 2 2\n");
}

#[test]
fn bodies_are_cut_to_the_file() {
    let mut file = recorded(&[(0, 1, b"abcd"), (1, 2, b"efgh")]);
    file.truncate(34 + 5);
    file[8] = 0xff; // a length of 65,284
    let changes = mend(&mut file).unwrap();
    let told = |field, old, new| Change { field, old, new };
    assert_eq!(
        changes,
        [
            told(Field::Length(0), 0xff04, 5),
            told(Field::Offset(1), 38, 39),
            told(Field::Length(1), 4, 0),
        ]
    );
    assert_eq!(&file[34..], b"abcde");
}

#[test]
fn the_reports_room_is_exact_and_a_refusal_writes_nothing() {
    assert_eq!(mend(&mut [0, 0, 1]), Err(Refusal::Length));
    let scrambled = [0, 0, 0, 1, 0x5a];
    let mut file = scrambled;
    let mut report = [0x5a; 6];
    assert_eq!(mend_into(&mut file, &mut report[..3]), Err(Refusal::Room));
    assert_eq!((file, report), (scrambled, [0x5a; 6]));
    assert_eq!(mend_into(&mut file, &mut report), Ok(1));
    assert_eq!(file, [0, 0, 0, 0, 0x5a]);
    assert_eq!(report, [4_096, 0, 1, 0, 0x5a, 0x5a]);
}

#[test]
fn a_count_of_all_ones_is_lowered_to_4096() {
    let mut file = vec![0; 4 + 15 * 4_097];
    file[..4].fill(0xff);
    let changes = mend(&mut file).unwrap();
    assert_eq!(changes[0].new, 4_096);
    assert_eq!(changes.len(), 1 + 4_096); // each offset too
    assert_eq!(mend(&mut file).unwrap(), []);
}
