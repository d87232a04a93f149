//! What the command line asks for.

pub const USAGE: &str = "\
A soak of the library: 400 datagrams a second from 64 clients, held to the plain
rules. Exit status 1 means that the library and the rules disagree.

usage: soak [--minutes N] [--seed N]

  --minutes N   length of the run on its own clock, 1 to 1,440 (default 60)
  --seed N      another seed gives another run (default 2022)";

#[derive(Clone, Copy, Debug, PartialEq, Eq)]
pub struct Options {
    pub minutes: u64,
    pub seed: u64,
}

impl Default for Options {
    fn default() -> Self {
        Self {
            minutes: 60,
            seed: 2022,
        }
    }
}

impl Options {
    /// The options of the arguments; `None` if the usage is asked for.
    pub fn parse(arguments: impl Iterator<Item = String>) -> Result<Option<Self>, String> {
        let mut options = Self::default();
        let mut arguments = arguments;
        while let Some(name) = arguments.next() {
            let mut number = || -> Result<u64, String> {
                let value = arguments.next().ok_or(format!("{name} wants a number"))?;
                let number = value.parse();
                number.map_err(|_| format!("{name} wants a number, not {value:?}"))
            };
            match name.as_str() {
                "--minutes" => options.minutes = number()?,
                "--seed" => options.seed = number()?,
                "--help" | "-h" => return Ok(None),
                _ => return Err(format!("unknown argument {name:?}")),
            }
        }
        if !(1..=1_440).contains(&options.minutes) {
            return Err("--minutes wants 1 to 1,440".to_string());
        }
        Ok(Some(options))
    }
}

#[cfg(test)]
mod tests {
    use super::Options;

    fn parse(arguments: &[&str]) -> Result<Option<Options>, String> {
        Options::parse(arguments.iter().map(|argument| argument.to_string()))
    }

    #[test]
    fn options_are_read() {
        assert_eq!(parse(&[]), Ok(Some(Options::default())));
        let read = parse(&["--seed", "7", "--minutes", "2"]);
        assert_eq!(
            read,
            Ok(Some(Options {
                minutes: 2,
                seed: 7
            }))
        );
        assert_eq!(parse(&["--help"]), Ok(None));
    }

    #[test]
    fn faults_are_named() {
        for (arguments, message) in [
            (&["--minutes"][..], "--minutes wants a number"),
            (&["--seed", "x"], "--seed wants a number, not \"x\""),
            (&["--minutes", "0"], "--minutes wants 1 to 1,440"),
            (&["fast"], "unknown argument \"fast\""),
        ] {
            assert_eq!(parse(arguments), Err(message.to_string()));
        }
    }
}
