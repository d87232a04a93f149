//! Base64 (RFC 4648), in which keys are written.
//!
//! ```
//! use relay::base64;
//!
//! assert_eq!(base64::encode(b"\xfb\xffkey"), "+/9rZXk=");
//! assert_eq!(base64::encode_url(b"\xfb\xffkey"), "-_9rZXk=");
//! for text in ["+/9rZXk=", "-_9rZXk", " +/9rZXk=\n"] {
//!     assert_eq!(base64::decode(text)?, b"\xfb\xffkey");
//! }
//! # Ok::<(), relay::Invalid>(())
//! ```
//!
//! Which letters there are decides which way the code goes. A key is read once, at the
//! start.

use crate::{secret, Invalid};

const STANDARD: &[u8; 64] = b"ABCDEFGHIJKLMNOPQRSTUVWXYZabcdefghijklmnopqrstuvwxyz0123456789+/";
const URL_SAFE: &[u8; 64] = b"ABCDEFGHIJKLMNOPQRSTUVWXYZabcdefghijklmnopqrstuvwxyz0123456789-_";

const PADDING: u8 = b'=';

/// The bytes in the standard alphabet, with padding.
pub fn encode(bytes: &[u8]) -> String {
    encode_with(STANDARD, bytes)
}

/// The bytes in the alphabet for URLs and names of files, with padding.
pub fn encode_url(bytes: &[u8]) -> String {
    encode_with(URL_SAFE, bytes)
}

fn encode_with(alphabet: &[u8; 64], bytes: &[u8]) -> String {
    // All the room at the start: text that is moved would leave a copy behind.
    let mut text = String::with_capacity(bytes.len().div_ceil(3) * 4);
    for group in bytes.chunks(3) {
        let mut number = [0; 4];
        number[1..=group.len()].copy_from_slice(group);
        let number = u32::from_be_bytes(number);
        for place in 0..4 {
            let letter = alphabet[(number >> (18 - 6 * place) & 63) as usize];
            let is_padding = place > group.len();
            text.push(char::from(if is_padding { PADDING } else { letter }));
        }
    }
    text
}

/// The bytes that a text is, in either alphabet. White space around the text is passed
/// over, and none within it. Padding may be left out as a whole.
///
/// # Errors
///
/// [`Invalid::Base64`] at the first letter of neither alphabet, at padding that is not due
/// or not whole, at a last letter whose spare bits are not zero, or at the end of a text
/// that is one letter too short.
pub fn decode(text: &str) -> Result<Vec<u8>, Invalid> {
    let mut bytes = Vec::with_capacity(text.len());
    match decode_to(&mut bytes, text) {
        Ok(()) => Ok(bytes),
        Err(invalid) => {
            secret::wipe(&mut bytes);
            Err(invalid)
        }
    }
}

/// Decodes for a use of the bytes, and overwrites them behind it.
pub(crate) fn with_decoded<T>(
    text: &str,
    make: impl FnOnce(&[u8]) -> Result<T, Invalid>,
) -> Result<T, Invalid> {
    let mut bytes = decode(text)?;
    let made = make(&bytes);
    secret::wipe(&mut bytes);
    made
}

/// Appends the bytes to a vector that has room for them.
fn decode_to(bytes: &mut Vec<u8>, text: &str) -> Result<(), Invalid> {
    let begin = text.len() - text.trim_ascii_start().len();
    let text = text.trim_ascii().as_bytes();
    let end = text.iter().position(|&letter| letter == PADDING);
    let (letters, padding) = text.split_at(end.unwrap_or(text.len()));
    for (group, place) in letters.chunks(4).zip((begin..).step_by(4)) {
        decode_group(bytes, group, place)?;
    }
    let due = letters.len().next_multiple_of(4) - letters.len();
    let present = padding.iter().take(due).take_while(|&&l| l == PADDING);
    match present.count() {
        count if padding.is_empty() || count == due && padding.len() == due => Ok(()),
        count => Err(Invalid::Base64 {
            place: begin + letters.len() + count,
        }),
    }
}

/// Appends the bytes of one to four letters, the first of which is at `place`.
fn decode_group(bytes: &mut Vec<u8>, letters: &[u8], place: usize) -> Result<(), Invalid> {
    let mut number: u32 = 0;
    for (&letter, place) in letters.iter().zip(place..) {
        number = number << 6 | value(letter).ok_or(Invalid::Base64 { place })?;
    }
    let (whole, spare) = (letters.len() * 6 / 8, letters.len() * 6 % 8);
    if whole == 0 {
        return Err(Invalid::Base64 { place: place + 1 });
    }
    if number & ((1 << spare) - 1) != 0 {
        let place = place + letters.len() - 1;
        return Err(Invalid::Base64 { place });
    }
    bytes.extend_from_slice(&(number >> spare).to_be_bytes()[4 - whole..]);
    Ok(())
}

/// The six bits of a letter.
fn value(letter: u8) -> Option<u32> {
    let value = match letter {
        b'A'..=b'Z' => letter - b'A',
        b'a'..=b'z' => letter - b'a' + 26,
        b'0'..=b'9' => letter - b'0' + 52,
        b'+' | b'-' => 62,
        b'/' | b'_' => 63,
        _ => return None,
    };
    Some(value.into())
}

#[cfg(test)]
mod tests {
    use super::{decode, encode, encode_url, STANDARD, URL_SAFE};
    use crate::Invalid;

    /// RFC 4648, section 10.
    #[test]
    fn published_examples() {
        for (bytes, text) in [
            (&b""[..], ""),
            (b"f", "Zg=="),
            (b"fo", "Zm8="),
            (b"foo", "Zm9v"),
            (b"foob", "Zm9vYg=="),
            (b"fooba", "Zm9vYmE="),
            (b"foobar", "Zm9vYmFy"),
        ] {
            assert_eq!(encode(bytes), text);
            assert_eq!(decode(text).unwrap(), bytes);
            assert_eq!(decode(text.trim_end_matches('=')).unwrap(), bytes);
        }
    }

    #[test]
    fn all_letters_of_both_alphabets() {
        let bytes = decode(std::str::from_utf8(STANDARD).unwrap()).unwrap();
        assert_eq!(bytes.len(), 48);
        assert_eq!(
            decode(std::str::from_utf8(URL_SAFE).unwrap()).unwrap(),
            bytes
        );
        assert_eq!(encode(&bytes).as_bytes(), STANDARD);
        assert_eq!(encode_url(&bytes).as_bytes(), URL_SAFE);
    }

    #[test]
    fn every_pair_of_bytes_is_read_back() {
        for pair in 0..=u16::MAX {
            let bytes = pair.to_be_bytes();
            assert_eq!(decode(&encode(&bytes)).unwrap(), bytes);
            assert_eq!(decode(&encode_url(&bytes)).unwrap(), bytes);
        }
    }

    /// Of the letters that may end a text of one byte or two, exactly those are taken that
    /// the encoder writes.
    #[test]
    fn spare_bits_are_zero() {
        for (front, step, padding) in [("A", 16, "=="), ("AA", 4, "=")] {
            for (index, &letter) in STANDARD.iter().enumerate() {
                let letters = format!("{front}{}", char::from(letter));
                for text in [letters.clone(), letters.clone() + padding] {
                    let expected = Err(Invalid::Base64 { place: front.len() });
                    match decode(&text) {
                        Ok(bytes) => assert_eq!(encode(&bytes), letters.clone() + padding),
                        refused => assert_eq!(refused, expected),
                    }
                    assert_eq!(decode(&text).is_ok(), index % step == 0);
                }
            }
        }
    }

    #[test]
    fn the_place_is_told() {
        for (text, place) in [
            ("Z", 1),
            ("=", 0),
            ("Z=", 1),
            ("Z===", 1),
            ("Zg=", 3),
            ("Zg===", 4),
            ("Zg==Zg==", 4),
            ("Zm8==", 4),
            ("Zm9v=", 4),
            ("Zm9vZ", 5),
            ("Zm 9v", 2),
            ("Zm9vYg\n==", 6),
            ("*m9v", 0),
            ("Zm9v\u{e9}A==", 4),
            (" \t*m9v", 2),
            ("\nZ\n", 2),
            ("Zh==", 1),
            ("Zm9vZm9=", 6),
        ] {
            assert_eq!(decode(text), Err(Invalid::Base64 { place }), "{text:?}");
        }
        for text in ["", " ", "\r\n"] {
            assert_eq!(decode(text).unwrap(), b"");
        }
    }
}
