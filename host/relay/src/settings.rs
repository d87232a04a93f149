//! Settings files.
//!
//! A settings file is an edition (2 bytes) and a count of settings (2); for each setting
//! its number (2), the offset of its body in the file (2) and the body's length (2),
//! big-endian, by rising numbers; the bodies back to back, the first one right behind
//! these contents; and the BLAKE3 hash (32) of all before it. The edition is the host's
//! own: any is read.
//!
//! A setting that this version does not know is refused if its number is below
//! [`FIRST_SKIPPED`], and passed over from there on: so an older box can tell which of a
//! newer file's settings it may do without. The hash tells damage, not who wrote the
//! file: anyone can make one.
//!
//! ```
//! use relay::settings::{self, Setting};
//! use relay::{Address, Method};
//!
//! let target = Address::name(b"example.com", 443)?;
//! let file = settings::write(
//!     7,
//!     &[
//!         Setting::Method(Method::ChaCha20Poly1305.into()),
//!         Setting::Retention(0),
//!         Setting::Target(&target),
//!         Setting::Other { number: 200, body: b"for a newer box" },
//!     ],
//! )?;
//!
//! let settings = settings::read(&file)?;
//! assert_eq!(settings.edition, 7);
//! assert_eq!(settings.method, Some(Method::ChaCha20Poly1305.into()));
//! assert_eq!(settings.retention, Some(0));
//! assert_eq!(settings.limit, None);
//! assert_eq!(settings.target, Some(target));
//! # Ok::<(), relay::Refusal>(())
//! ```

use std::error::Error;
use std::fmt;
use std::str::FromStr;

use crate::answer::{self, Answer};
use crate::method::tell_unknown;
use crate::{ffi, sip004, Address, Refusal, Target};

/// The shortest file, in bytes: one without settings.
pub const MIN_FILE: usize = 36;

/// The longest file, in bytes.
pub const MAX_FILE: usize = 65_535;

/// The first number whose setting is passed over where it is not known.
pub const FIRST_SKIPPED: u16 = 128;

/// The numbers of the known settings.
pub(crate) const METHOD: u16 = 1;
pub(crate) const RETENTION: u16 = 2;
pub(crate) const LIMIT: u16 = 3;
pub(crate) const TARGET: u16 = 4;

/// A method of either edition of the protocol.
///
/// ```
/// use relay::settings::Method;
/// use relay::sip004;
///
/// let method: Method = "aes-192-gcm".parse()?;
/// assert_eq!(method, Method::Sip004(sip004::Method::Aes192Gcm));
/// assert_eq!((method.to_string(), method.key_len()), ("aes-192-gcm".to_string(), 24));
/// # Ok::<(), relay::settings::UnknownMethod>(())
/// ```
#[derive(Clone, Copy, Debug, PartialEq, Eq, Hash)]
pub enum Method {
    /// A method of Shadowsocks 2022.
    Sip022(crate::Method),
    /// A method of the 2017 edition.
    Sip004(sip004::Method),
}

impl Method {
    /// Every method, by number.
    pub const ALL: [Self; 8] = [
        Self::Sip022(crate::Method::Aes128Gcm),
        Self::Sip022(crate::Method::Aes256Gcm),
        Self::Sip022(crate::Method::ChaCha20Poly1305),
        Self::Sip022(crate::Method::ChaCha12Poly1305),
        Self::Sip022(crate::Method::ChaCha8Poly1305),
        Self::Sip004(sip004::Method::Aes128Gcm),
        Self::Sip004(sip004::Method::Aes192Gcm),
        Self::Sip004(sip004::Method::Aes256Gcm),
    ];

    /// The method's number, as C callers and files have it.
    pub const fn number(self) -> u64 {
        match self {
            Self::Sip022(method) => method.number(),
            Self::Sip004(method) => method.number(),
        }
    }

    /// The method of a number, if there is one.
    pub fn from_number(number: u64) -> Option<Self> {
        Self::ALL
            .into_iter()
            .find(|method| method.number() == number)
    }

    /// The method's name in its edition.
    pub const fn name(self) -> &'static str {
        match self {
            Self::Sip022(method) => method.name(),
            Self::Sip004(method) => method.name(),
        }
    }

    /// The length of a key in bytes.
    pub const fn key_len(self) -> usize {
        match self {
            Self::Sip022(method) => method.key_len(),
            Self::Sip004(method) => method.key_len(),
        }
    }
}

impl fmt::Display for Method {
    fn fmt(&self, f: &mut fmt::Formatter<'_>) -> fmt::Result {
        f.pad(self.name())
    }
}

impl FromStr for Method {
    type Err = UnknownMethod;

    /// Finds a method by its exact name.
    fn from_str(name: &str) -> Result<Self, UnknownMethod> {
        Self::ALL
            .into_iter()
            .find(|method| method.name() == name)
            .ok_or_else(|| UnknownMethod {
                name: name.to_string(),
            })
    }
}

/// There is no method of that name in either edition.
#[derive(Clone, Debug, PartialEq, Eq)]
pub struct UnknownMethod {
    /// The name that was given.
    pub name: String,
}

impl fmt::Display for UnknownMethod {
    fn fmt(&self, f: &mut fmt::Formatter<'_>) -> fmt::Result {
        tell_unknown(f, &Method::ALL.map(Method::name), &self.name)
    }
}

impl Error for UnknownMethod {}

impl From<crate::Method> for Method {
    fn from(method: crate::Method) -> Self {
        Self::Sip022(method)
    }
}

impl From<sip004::Method> for Method {
    fn from(method: sip004::Method) -> Self {
        Self::Sip004(method)
    }
}

/// What a settings file shows. `None` is a setting that the file has not.
#[derive(Clone, Debug, PartialEq, Eq)]
pub struct Settings {
    /// The edition.
    pub edition: u16,
    /// The method.
    pub method: Option<Method>,
    /// Seconds that a silent session is remembered, as they are set: 0 or 60 to 3,600. A
    /// [`Table`](crate::Table) takes 0 for 300.
    pub retention: Option<u16>,
    /// The path limit, up to 65,507: the most bytes of a datagram, as a
    /// [`Plan`](crate::Plan) takes it.
    pub limit: Option<usize>,
    /// The target.
    pub target: Option<Address>,
}

impl Settings {
    /// # Panics
    ///
    /// If there is no such method or target: the library is then not the one that was
    /// proved.
    fn from_library(answer: &Answer, file: &[u8]) -> Self {
        let [edition, set, method, retention, limit, kind, first, second, port] = *answer;
        let is_set = |number: u16| set >> (number - 1) & 1 == 1;
        Self {
            edition: answer::half_word(edition),
            method: is_set(METHOD).then(|| {
                Method::from_number(method)
                    .unwrap_or_else(|| unreachable!("librelay.a read {method}, which is no method"))
            }),
            retention: is_set(RETENTION).then(|| answer::half_word(retention)),
            limit: is_set(LIMIT).then(|| answer::length(limit)),
            target: is_set(TARGET).then(|| {
                Target::from_library(kind, first, second).address(answer::half_word(port), file)
            }),
        }
    }
}

/// Reads a settings file.
///
/// # Errors
///
/// The first that applies: [`Length`](Refusal::Length) (under [`MIN_FILE`] or over
/// [`MAX_FILE`] bytes), [`NotAuthentic`](Refusal::NotAuthentic) (the hash),
/// [`Malformed`](Refusal::Malformed) (the contents run past the hash, numbers do not
/// rise, the bodies are not back to back from the contents to the hash, or a known
/// setting is unlawful), [`UnknownSetting`](Refusal::UnknownSetting).
pub fn read(file: &[u8]) -> Result<Settings, Refusal> {
    ffi::settings_read(file).map(|words| Settings::from_library(&words, file))
}

/// A setting to write.
#[derive(Clone, Copy, Debug, PartialEq, Eq)]
pub enum Setting<'a> {
    /// Number 1.
    Method(Method),
    /// Number 2, the retention: 0 or 60 to 3,600 seconds.
    Retention(u16),
    /// Number 3, the path limit: up to 65,507 bytes.
    Limit(usize),
    /// Number 4.
    Target(&'a Address),
    /// Any bytes under a number from [`FIRST_SKIPPED`] on, for a reader that knows it.
    Other {
        /// The number.
        number: u16,
        /// The bytes.
        body: &'a [u8],
    },
}

impl Setting<'_> {
    /// The setting's number.
    pub fn number(&self) -> u16 {
        match self {
            Self::Method(_) => METHOD,
            Self::Retention(_) => RETENTION,
            Self::Limit(_) => LIMIT,
            Self::Target(_) => TARGET,
            Self::Other { number, .. } => *number,
        }
    }

    fn body(&self) -> Vec<u8> {
        match *self {
            Self::Method(method) => method.number().to_be_bytes()[7..].to_vec(),
            Self::Retention(seconds) => seconds.to_be_bytes().to_vec(),
            // A limit that has no place in 4 bytes is as unlawful as the largest that has.
            Self::Limit(limit) => u32::try_from(limit)
                .unwrap_or(u32::MAX)
                .to_be_bytes()
                .to_vec(),
            Self::Target(address) => address.as_bytes().to_vec(),
            Self::Other { body, .. } => body.to_vec(),
        }
    }
}

/// The settings file of an edition and settings, which are given by rising numbers.
/// [`read`], it shows this edition and exactly the settings of numbers 1 to 4 that were
/// given.
///
/// # Errors
///
/// The first that applies: [`Argument`](Refusal::Argument) (an unlawful setting,
/// [`Other`](Setting::Other) with a number below [`FIRST_SKIPPED`] that is not known or
/// with unlawful bytes for one that is, numbers that do not rise),
/// [`Length`](Refusal::Length) (over [`MAX_FILE`] bytes).
pub fn write(edition: u16, settings: &[Setting]) -> Result<Vec<u8>, Refusal> {
    let mut file = vec![0; MAX_FILE];
    let length = write_into(edition, settings, &mut file)?;
    file.truncate(length);
    Ok(file)
}

/// The same, written to the front of a buffer: how many bytes.
///
/// # Errors
///
/// As [`write()`], and then [`Refusal::Room`] if the file is longer than the buffer. A
/// refusal writes nothing.
pub fn write_into(edition: u16, settings: &[Setting], out: &mut [u8]) -> Result<usize, Refusal> {
    let (mut words, mut bodies) = (Vec::with_capacity(2 * settings.len()), Vec::new());
    for setting in settings {
        let body = setting.body();
        words.extend([u64::from(setting.number()), body.len() as u64]);
        bodies.extend(body);
    }
    ffi::settings_write(edition, &words, &bodies, out).map(|words| answer::length(words[0]))
}

#[cfg(test)]
mod tests {
    use super::Method;
    use crate::sip004;

    #[test]
    fn all_are_those_of_both_editions() {
        let newer = crate::Method::ALL.into_iter().map(Method::from);
        let older = sip004::Method::ALL.into_iter().map(Method::from);
        assert!(newer.chain(older).eq(Method::ALL));
        for method in Method::ALL {
            assert_eq!(method.name().parse(), Ok(method));
            assert_eq!(Method::from_number(method.number()), Some(method));
            let keys = match method {
                Method::Sip022(method) => method.key_len(),
                Method::Sip004(method) => method.key_len(),
            };
            assert_eq!(
                (method.key_len(), method.to_string()),
                (keys, method.name().into())
            );
        }
    }

    #[test]
    fn an_unknown_name_is_told_with_all_eight() {
        let told = "aes-129-gcm".parse::<Method>().unwrap_err().to_string();
        for method in Method::ALL {
            assert!(told.contains(method.name()), "{told}");
        }
        assert!(told.ends_with("aes-192-gcm or aes-256-gcm, not \"aes-129-gcm\""));
    }
}
