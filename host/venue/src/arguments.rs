//! The command line of one command: words and options, some with a value.

use crate::commands::Command;
use crate::input::Input;
use crate::Failure;
use sessions::stream::Form;
use std::ffi::{OsStr, OsString};
use std::os::unix::ffi::OsStrExt;

/// The arguments of one command, checked against what it takes.
pub struct Arguments {
    command: &'static Command,
    words: Vec<OsString>,
    options: Vec<(&'static str, OsString)>,
}

/// What a word of the command line is.
enum Read {
    Word,
    /// An option, with the value that stands after a `=`.
    Option(&'static str, Option<OsString>),
}

impl Arguments {
    /// Reads what follows the name of a command.
    pub fn parse(command: &'static Command, rest: &[OsString]) -> Result<Self, Failure> {
        let mut parsed = Arguments {
            command,
            words: Vec::new(),
            options: Vec::new(),
        };
        let mut rest = rest.iter();
        while let Some(word) = rest.next() {
            if word == "--" {
                parsed.words.extend(rest.by_ref().cloned());
                break;
            }
            match parsed.look_at(word)? {
                Read::Word => parsed.words.push(word.clone()),
                Read::Option(name, value) => parsed.add(name, value, &mut rest)?,
            }
        }
        match parsed.words.get(command.words) {
            Some(extra) => Err(usage(format!("argument {extra:?} is one too many"))),
            None => Ok(parsed),
        }
    }

    /// Tells words and options apart.
    fn look_at(&self, word: &OsStr) -> Result<Read, Failure> {
        let bytes = word.as_bytes();
        if bytes.len() < 2 || bytes[0] != b'-' {
            return Ok(Read::Word);
        }
        let mut halves = bytes.splitn(2, |byte| *byte == b'=');
        let name = halves.next().unwrap_or_default();
        let value = halves.next().map(|value| OsStr::from_bytes(value).into());
        let known = self.command.flags.iter().chain(self.command.valued);
        match known.copied().find(|known| known.as_bytes() == name) {
            Some(known) => Ok(Read::Option(known, value)),
            None => {
                let name = OsStr::from_bytes(name).to_string_lossy();
                Err(usage(format!("option {name} is not known here")))
            }
        }
    }

    /// Takes an option, and where it needs one the value that follows it.
    fn add<'a>(
        &mut self,
        name: &'static str,
        value: Option<OsString>,
        rest: &mut impl Iterator<Item = &'a OsString>,
    ) -> Result<(), Failure> {
        if self.has(name) {
            return Err(usage(format!("option {name} was given twice")));
        }
        let has_value = self.command.valued.contains(&name);
        let value = match (has_value, value) {
            (false, Some(_)) => return Err(usage(format!("option {name} takes no value"))),
            (false, None) => OsString::new(),
            (true, Some(value)) => value,
            (true, None) => rest
                .next()
                .cloned()
                .ok_or_else(|| usage(format!("expected a value after {name}")))?,
        };
        self.options.push((name, value));
        Ok(())
    }

    /// The name of the command, as errors tell it.
    pub fn name(&self) -> String {
        format!("venue {}", self.command.name)
    }

    pub fn word(&self, index: usize) -> Option<&OsStr> {
        self.words.get(index).map(OsString::as_os_str)
    }

    /// The file that a word names; standard input where it is `-` or left out.
    pub fn input(&self, index: usize) -> Input<'_> {
        Input::new(self.word(index).unwrap_or(OsStr::new("-")))
    }

    /// The two files that the words name, of which only one can be standard input.
    pub fn two_inputs(&self, names: &str) -> Result<[Input<'_>; 2], Failure> {
        if self.words.len() < 2 {
            return Err(usage(format!("expected {names}")));
        }
        let [first, second] = [0, 1].map(|index| self.input(index));
        match first.is_standard() && second.is_standard() {
            true => Err(usage("only one of both can be -".to_string())),
            false => Ok([first, second]),
        }
    }

    pub fn has(&self, name: &str) -> bool {
        self.option(name).is_some()
    }

    pub fn option(&self, name: &str) -> Option<&OsStr> {
        let found = self.options.iter().find(|(option, _)| *option == name);
        found.map(|(_, value)| value.as_os_str())
    }

    /// A number option; `otherwise` where it was not given.
    pub fn number(&self, name: &str, otherwise: Option<u64>) -> Result<u64, Failure> {
        let Some(value) = self.option(name) else {
            return otherwise.ok_or_else(|| usage(format!("expected {name} NUMBER")));
        };
        let number = value.to_str().and_then(|value| value.parse().ok());
        number.ok_or_else(|| usage(format!("expected a number after {name}, found {value:?}")))
    }

    /// The first and the last message that `--from` and `--to` ask for.
    pub fn messages(&self) -> Result<(u64, u64), Failure> {
        let from = self.number("--from", Some(1))?;
        let to = self.number("--to", Some(u64::MAX))?;
        if from == 0 {
            return Err(usage("messages are numbered from 1".to_string()));
        }
        if from > to {
            return Err(usage(format!("--from {from} is after --to {to}")));
        }
        Ok((from, to))
    }

    /// Which of two options was given, of which only one can be.
    pub fn either(&self, first: &str, second: &str) -> Result<(bool, bool), Failure> {
        match (self.has(first), self.has(second)) {
            (true, true) => Err(usage(format!(
                "only one of {first} and {second} can be asked for"
            ))),
            asked => Ok(asked),
        }
    }

    /// How a session is given, by `--text` and `--bytes`.
    pub fn form(&self) -> Result<Form, Failure> {
        Ok(match self.either("--text", "--bytes")? {
            (true, _) => Form::Text,
            (_, true) => Form::AnyBytes,
            _ => Form::Bytes,
        })
    }
}

/// A wrong command line.
pub fn usage(what: String) -> Failure {
    Failure::Usage(what)
}
