//! Numbers, times and names as a picture shows them.

/// With commas between thousands.
pub fn grouped(number: u64) -> String {
    let digits = number.to_string();
    let mut text = String::new();
    for (place, digit) in digits.chars().enumerate() {
        if place > 0 && (digits.len() - place) % 3 == 0 {
            text.push(',');
        }
        text.push(digit);
    }
    text
}

/// `1 entry`, `2 entries`.
pub fn counted(count: usize, one: &str, more: &str) -> String {
    match count {
        1 => format!("1 {one}"),
        _ => format!("{} {more}", grouped(count as u64)),
    }
}

/// The last clock that is told as a day: the end of the year 9999.
const LAST_CLOCK: u64 = 253_402_300_799;

const DAY: u64 = 86_400;

/// A clock in seconds since 1970, as day and time of UTC where it is one.
pub fn utc(clock: u64) -> String {
    if clock > LAST_CLOCK {
        return format!("clock {clock}");
    }
    let (year, month, day) = civil(clock / DAY);
    let second = clock % DAY;
    let (hour, minute, second) = (second / 3_600, second / 60 % 60, second % 60);
    format!("{year:04}-{month:02}-{day:02} {hour:02}:{minute:02}:{second:02} UTC")
}

/// Year, month and day of a number of days since 1970. Years are counted from March, so that
/// a leap day is a year's last one.
fn civil(days: u64) -> (u64, u64, u64) {
    // From 1 March of the year 0, in cycles of 400 years.
    let days = days + 719_468;
    let (cycle, day) = (days / 146_097, days % 146_097);
    let year = (day - day / 1_460 + day / 36_524 - day / 146_096) / 365;
    let day = day - (365 * year + year / 4 - year / 100);
    let month = (5 * day + 2) / 153;
    let day = day - (153 * month + 2) / 5 + 1;
    let (month, after) = match month {
        0..=9 => (month + 3, 0),
        _ => (month - 9, 1),
    };
    (400 * cycle + year + after, month, day)
}

/// A name of at most so many letters; of a longer one its end, which tells files apart.
pub fn clipped(name: &str, most: usize) -> String {
    let length = name.chars().count();
    if length <= most {
        return name.to_string();
    }
    let end: String = name.chars().skip(length + 1 - most).collect();
    format!("…{end}")
}

#[cfg(test)]
mod tests {
    use super::{clipped, grouped, utc};

    #[test]
    fn thousands_are_parted() {
        let texts = [0, 999, 1_000, 65_507, 1_234_567].map(grouped);
        assert_eq!(texts, ["0", "999", "1,000", "65,507", "1,234,567"]);
    }

    #[test]
    fn clocks_are_days_and_times() {
        for (clock, text) in [
            (0, "1970-01-01 00:00:00 UTC"),
            (951_782_399, "2000-02-28 23:59:59 UTC"),
            (951_782_400, "2000-02-29 00:00:00 UTC"),
            (1_700_000_000, "2023-11-14 22:13:20 UTC"),
            (4_107_542_400, "2100-03-01 00:00:00 UTC"),
            (253_402_300_799, "9999-12-31 23:59:59 UTC"),
            (u64::MAX, "clock 18446744073709551615"),
        ] {
            assert_eq!(utc(clock), text);
        }
    }

    #[test]
    fn a_long_name_keeps_its_end() {
        assert_eq!(clipped("box.000001", 10), "box.000001");
        assert_eq!(clipped("box.000001", 7), "…000001");
    }
}
