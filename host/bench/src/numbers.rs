//! How numbers are written.

/// With three digits that count, or more before the point.
pub fn rounded(number: f64) -> String {
    if number >= 99.95 {
        return grouped(number.round() as usize);
    }
    let digits = match number {
        _ if number >= 9.995 => 1,
        _ if number >= 0.9995 => 2,
        _ => 3,
    };
    format!("{number:.digits$}")
}

/// With commas between the thousands.
pub fn grouped(number: usize) -> String {
    let digits = number.to_string();
    let mut text = String::new();
    for (index, digit) in digits.chars().enumerate() {
        if index > 0 && (digits.len() - index) % 3 == 0 {
            text.push(',');
        }
        text.push(digit);
    }
    text
}

#[cfg(test)]
mod tests {
    use super::{grouped, rounded};

    #[test]
    fn three_digits_count() {
        let numbers = [0.0093, 0.9996, 1.234, 9.996, 26.2028, 99.96, 4_321.5];
        let texts = ["0.009", "1.00", "1.23", "10.0", "26.2", "100", "4,322"];
        assert_eq!(numbers.map(rounded), texts);
    }

    #[test]
    fn thousands_are_grouped() {
        let numbers = [0, 999, 1_000, 65_507, 1_234_567];
        let texts = ["0", "999", "1,000", "65,507", "1,234,567"];
        assert_eq!(numbers.map(grouped), texts);
    }
}
