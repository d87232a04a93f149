//! What both ends are told: method and key, retention, limit and target.

use std::env;
use std::path::Path;

use relay::settings::{self, Method};
use relay::{sip004, Address, Key, MAX_DATAGRAM};

use crate::arguments::Arguments;
use crate::failure::{misuse, trouble, About, Outcome};
use crate::files;

/// The environment's variable that holds a key where no file does.
pub const KEY_VARIABLE: &str = "BHAJNOLITH_KEY";

/// A key file is base64 of 32 bytes at most, and a line's end.
const LONGEST_KEY_FILE: usize = 4_096;

/// A key of either edition, with its method.
#[derive(Clone)]
pub enum Secret {
    Sip022(Key),
    Sip004(sip004::Key),
}

impl Secret {
    /// The key of a file, or else of the environment. It is never an argument, which everybody
    /// on the box could read.
    pub fn find(method: Method, file: Option<&Path>) -> Outcome<Self> {
        let (text, from) = match file {
            Some(path) => (read_key_file(path)?, path.display().to_string()),
            None => {
                let text = env::var(KEY_VARIABLE).map_err(|_| {
                    misuse(format!(
                        "--key-file is missing, and {KEY_VARIABLE} is not set"
                    ))
                })?;
                (text, KEY_VARIABLE.to_string())
            }
        };
        Self::from_base64(method, &text).about(from)
    }

    fn from_base64(method: Method, text: &str) -> Result<Self, relay::Invalid> {
        match method {
            Method::Sip022(method) => Key::from_base64(method, text).map(Self::Sip022),
            Method::Sip004(method) => sip004::Key::from_base64(method, text).map(Self::Sip004),
        }
    }

    pub fn method(&self) -> Method {
        match self {
            Self::Sip022(key) => key.method().into(),
            Self::Sip004(key) => key.method().into(),
        }
    }
}

fn read_key_file(path: &Path) -> Outcome<String> {
    let text = files::read_front(path, LONGEST_KEY_FILE)?;
    let text = Some(text).filter(|text| text.len() <= LONGEST_KEY_FILE);
    let text = text.and_then(|text| String::from_utf8(text).ok());
    text.ok_or_else(|| trouble(format!("{}: no key file", path.display())))
}

/// What an end is told, by its options or else by a settings file.
pub struct Material {
    pub secret: Secret,
    /// In seconds; 0 is the library's own choice.
    pub retention: u64,
    /// The most bytes of a datagram that is sent sealed.
    pub limit: usize,
    pub target: Option<Address>,
}

impl Material {
    pub fn read(arguments: &Arguments) -> Outcome<Self> {
        let file = arguments.path("--settings")?;
        let file = file.as_deref().map(read_settings).transpose()?;
        let file = file.as_ref();
        let method = arguments.read("--method")?;
        let method = method.or(file.and_then(|file| file.method));
        let method = method.ok_or_else(|| misuse("--method is missing"))?;
        let retention = arguments.read("--retention")?;
        let retention = retention.or(file.and_then(|file| file.retention.map(u64::from)));
        let limit = arguments.read("--limit")?;
        let limit = limit.or(file.and_then(|file| file.limit));
        if limit.is_some_and(|limit| limit > MAX_DATAGRAM) {
            return Err(misuse(format!("--limit wants {MAX_DATAGRAM} or less")));
        }
        let target = arguments.read("--target")?;
        Ok(Self {
            secret: Secret::find(method, arguments.path("--key-file")?.as_deref())?,
            retention: retention.unwrap_or(0),
            limit: limit.unwrap_or(MAX_DATAGRAM),
            target: target.or(file.and_then(|file| file.target.clone())),
        })
    }
}

fn read_settings(path: &Path) -> Outcome<settings::Settings> {
    let bytes = files::read_front(path, settings::MAX_FILE)?;
    settings::read(&bytes).about(path.display())
}
