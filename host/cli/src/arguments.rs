//! Arguments of a command: options that take a value, flags, and operands.

use std::ffi::OsString;
use std::path::PathBuf;
use std::str::FromStr;

use crate::failure::{misuse, Failure, Outcome};

/// What a command takes.
pub struct Syntax {
    /// Options with a value, such as `--method`.
    pub values: &'static [&'static str],
    /// Options without one, such as `--json`.
    pub flags: &'static [&'static str],
    /// What its operands are called, in order; all of them are wanted.
    pub operands: &'static [&'static str],
}

/// The arguments of one command, in the order in which they were given.
pub struct Arguments {
    options: Vec<(&'static str, OsString)>,
    operands: Vec<OsString>,
}

impl Arguments {
    /// Reads `--name value`, `--name=value`, `--flag` and operands; behind `--` all are operands.
    pub fn parse(
        syntax: &Syntax,
        arguments: impl IntoIterator<Item = OsString>,
    ) -> Outcome<Arguments> {
        let mut parsed = Self {
            options: Vec::new(),
            operands: Vec::new(),
        };
        let mut arguments = arguments.into_iter();
        let mut only_operands = false;
        while let Some(argument) = arguments.next() {
            match argument.to_str() {
                Some("--") if !only_operands => only_operands = true,
                Some(text) if text.starts_with("--") && !only_operands => {
                    parsed
                        .options
                        .push(option(syntax, text, || arguments.next())?);
                }
                _ => parsed.operands.push(argument),
            }
        }
        parsed.count_operands(syntax)?;
        Ok(parsed)
    }

    fn count_operands(&self, syntax: &Syntax) -> Outcome<()> {
        let (given, wanted) = (self.operands.len(), syntax.operands.len());
        if let Some(name) = syntax.operands.get(given) {
            return Err(misuse(format!("{name} is missing")));
        }
        match self.operands.get(wanted) {
            Some(more) => Err(misuse(format!("{more:?} is one argument too many"))),
            None => Ok(()),
        }
    }

    /// The name of the first option, if there is any.
    pub fn first(&self) -> Option<&str> {
        self.options.first().map(|(name, _)| *name)
    }

    pub fn has(&self, flag: &str) -> bool {
        self.options.iter().any(|(name, _)| *name == flag)
    }

    pub fn operand(&self, index: usize) -> Outcome<PathBuf> {
        let operand = self.operands.get(index).map(PathBuf::from);
        operand.ok_or_else(|| misuse("an argument is missing"))
    }

    /// The values of an option that may be given more than once.
    pub fn all(&self, name: &'static str) -> impl Iterator<Item = &OsString> {
        let named = self.options.iter().filter(move |(given, _)| *given == name);
        named.map(|(_, value)| value)
    }

    /// The value of an option that may be given once.
    pub fn value(&self, name: &'static str) -> Outcome<Option<&OsString>> {
        let mut all = self.all(name);
        let value = all.next();
        match all.next() {
            Some(_) => Err(misuse(format!("{name} is given twice"))),
            None => Ok(value),
        }
    }

    pub fn path(&self, name: &'static str) -> Outcome<Option<PathBuf>> {
        Ok(self.value(name)?.map(PathBuf::from))
    }

    /// The value of an option, read as what its type says.
    pub fn read<T>(&self, name: &'static str) -> Outcome<Option<T>>
    where
        T: FromStr,
        T::Err: std::fmt::Display,
    {
        let value = self.value(name)?;
        value.map(|value| read(name, value)).transpose()
    }

    pub fn wanted<T>(&self, name: &'static str) -> Outcome<T>
    where
        T: FromStr,
        T::Err: std::fmt::Display,
    {
        let value = self.read(name)?;
        value.ok_or_else(|| misuse(format!("{name} is missing")))
    }

    /// Cuts the options into those before the first `name` and one part for each `name`, which
    /// the part begins with.
    pub fn split(self, name: &str) -> (Self, Vec<Self>) {
        let mut parts = Vec::new();
        let mut front = Self {
            options: Vec::new(),
            operands: self.operands,
        };
        for (given, value) in self.options {
            if given == name {
                parts.push(Self {
                    options: Vec::new(),
                    operands: Vec::new(),
                });
            }
            let part = parts.last_mut().unwrap_or(&mut front);
            part.options.push((given, value));
        }
        (front, parts)
    }

    /// Moves the options of these names, wherever they stand, into arguments of their own.
    pub fn take(&mut self, names: &[&str]) -> Self {
        let options = std::mem::take(&mut self.options).into_iter();
        let (mine, rest) = options.partition(|(given, _)| names.contains(given));
        self.options = rest;
        Self {
            options: mine,
            operands: Vec::new(),
        }
    }
}

/// Reads one value.
pub fn read<T>(name: &str, value: &OsString) -> Outcome<T>
where
    T: FromStr,
    T::Err: std::fmt::Display,
{
    let text = value
        .to_str()
        .ok_or_else(|| misuse(format!("{name} wants text, not {value:?}")))?;
    text.parse()
        .map_err(|error: T::Err| misuse(format!("{name} {text}: {error}")))
}

/// The option that an argument names, with its value.
fn option(
    syntax: &Syntax,
    text: &str,
    next: impl FnOnce() -> Option<OsString>,
) -> Result<(&'static str, OsString), Failure> {
    let (name, joined) = match text.split_once('=') {
        Some((name, value)) => (name, Some(OsString::from(value))),
        None => (text, None),
    };
    let known = |names: &'static [&'static str]| names.iter().find(|known| **known == name);
    if let Some(name) = known(syntax.values) {
        let value = joined.or_else(next);
        let value = value.ok_or_else(|| misuse(format!("{name} wants a value")))?;
        return Ok((name, value));
    }
    match (known(syntax.flags), joined) {
        (Some(name), None) => Ok((name, OsString::new())),
        (Some(name), Some(_)) => Err(misuse(format!("{name} takes no value"))),
        (None, _) => Err(misuse(format!("{name} is not an option here"))),
    }
}

#[cfg(test)]
mod tests {
    use std::ffi::OsString;

    use super::{Arguments, Syntax};

    const SYNTAX: Syntax = Syntax {
        values: &["--listen", "--method"],
        flags: &["--json"],
        operands: &["FILE"],
    };

    fn parse(arguments: &[&str]) -> Result<Arguments, String> {
        let arguments = arguments.iter().map(OsString::from);
        Arguments::parse(&SYNTAX, arguments).map_err(|failure| failure.to_string())
    }

    #[test]
    fn values_flags_and_operands_are_read() {
        let read = parse(&["--method", "a", "f", "--json", "--listen=b"]).unwrap();
        assert_eq!(
            read.read::<String>("--method").unwrap().as_deref(),
            Some("a")
        );
        assert_eq!(read.wanted::<String>("--listen").unwrap(), "b");
        assert!(read.has("--json"));
        assert_eq!(read.operand(0).unwrap().to_str(), Some("f"));
        let read = parse(&["--", "--json"]).unwrap();
        assert_eq!(read.operand(0).unwrap().to_str(), Some("--json"));
    }

    #[test]
    fn misuse_is_named() {
        for (arguments, message) in [
            (&[][..], "FILE is missing"),
            (&["a", "b"], "\"b\" is one argument too many"),
            (&["a", "--method"], "--method wants a value"),
            (&["a", "--json=1"], "--json takes no value"),
            (&["a", "--fast"], "--fast is not an option here"),
        ] {
            assert_eq!(parse(arguments).err().as_deref(), Some(message));
        }
        let twice = parse(&["a", "--method", "b", "--method", "c"]).unwrap();
        assert!(twice.value("--method").is_err());
    }

    #[test]
    fn options_belong_to_what_stands_before_them() {
        let read = parse(&[
            "f", "--json", "--listen", "a", "--method", "b", "--listen", "c",
        ]);
        let (front, parts) = read.unwrap().split("--listen");
        assert!(front.has("--json") && !front.has("--method"));
        let methods: Vec<bool> = parts.iter().map(|part| part.has("--method")).collect();
        assert_eq!(methods, [true, false]);
    }
}
