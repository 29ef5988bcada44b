//! The words after a command's name.

use std::ffi::OsString;
use std::os::unix::ffi::{OsStrExt, OsStringExt};
use std::path::PathBuf;

use crate::failure::Failure;
use crate::Command;

/// What was said: options with their values, and the words that are none.
pub struct Args {
    command: &'static str,
    flags: Vec<&'static str>,
    values: Vec<(&'static str, OsString)>,
    words: std::vec::IntoIter<OsString>,
}

impl Args {
    /// Sorts the words. An option's value is the next word, or stands behind
    /// `=`; after `--` no word is an option.
    pub fn read(
        mut given: impl Iterator<Item = OsString>,
        command: &Command,
    ) -> Result<Args, Failure> {
        let mut flags = Vec::new();
        let mut values: Vec<(&'static str, OsString)> = Vec::new();
        let mut words = Vec::new();
        while let Some(word) = given.next() {
            let text = word.to_string_lossy();
            if text == "--" {
                words.extend(given.by_ref());
            } else if text == "-h" || text == "--help" {
                flags.push("--help");
            } else if !text.starts_with('-') || text == "-" {
                words.push(word);
            } else if let Some(flag) = known(command.flags, &text) {
                flags.push(flag);
            } else {
                let (name, value) = parted(&word);
                let usage = |what| Failure::usage(command.name, what);
                let Some(name) = known(command.valued, name) else {
                    return Err(usage(format!("there is no option '{text}'")));
                };
                if values.iter().any(|(other, _)| *other == name) {
                    return Err(usage(format!("{name} is said twice")));
                }
                let value = value.or_else(|| given.next());
                let value = value.ok_or_else(|| usage(format!("{name} lacks its value")))?;
                values.push((name, value));
            }
        }
        Ok(Args {
            command: command.name,
            flags,
            values,
            words: words.into_iter(),
        })
    }

    /// The command's name.
    pub fn command(&self) -> &'static str {
        self.command
    }

    /// Whether an option without value was said.
    pub fn flag(&self, name: &str) -> bool {
        self.flags.contains(&name)
    }

    /// The value of an option.
    pub fn value(&self, name: &str) -> Option<&OsString> {
        let mut values = self.values.iter();
        values
            .find(|(other, _)| *other == name)
            .map(|(_, value)| value)
    }

    /// The value of an option as a number.
    pub fn number(&self, name: &str) -> Result<Option<u32>, Failure> {
        let value = self.value(name);
        value.map(|value| self.parse(name, value)).transpose()
    }

    /// The next word that is no option, as a file's name.
    pub fn file(&mut self, what: &str) -> Result<PathBuf, Failure> {
        let next = self.words.next().map(PathBuf::from);
        next.ok_or_else(|| self.usage(format!("{what} is missing")))
    }

    /// The next word that is no option, as a file's name, if there is one.
    pub fn optional_file(&mut self) -> Option<PathBuf> {
        self.words.next().map(PathBuf::from)
    }

    /// The next word that is no option, as a number.
    pub fn word_number(&mut self, what: &str) -> Result<u32, Failure> {
        match self.words.next() {
            Some(word) => self.parse(what, &word),
            None => Err(self.usage(format!("{what} is missing"))),
        }
    }

    /// Whether words are left.
    pub fn more(&self) -> bool {
        self.words.len() > 0
    }

    /// That no word is left.
    pub fn end(&mut self) -> Result<(), Failure> {
        match self.words.next() {
            None => Ok(()),
            Some(word) => Err(self.usage(format!("'{}' is too much", word.to_string_lossy()))),
        }
    }

    /// What is wrong with the words.
    pub fn usage(&self, what: impl Into<String>) -> Failure {
        Failure::usage(self.command, what)
    }

    fn parse(&self, what: &str, word: &OsString) -> Result<u32, Failure> {
        let text = word.to_string_lossy();
        let number = text
            .bytes()
            .all(|byte| byte.is_ascii_digit())
            .then(|| text.parse().ok());
        number.flatten().ok_or_else(|| {
            self.usage(format!(
                "{what} is '{text}', which is no number from 0 to 4294967295"
            ))
        })
    }
}

/// An option's name, and what stands behind its `=`.
fn parted(word: &OsString) -> (&str, Option<OsString>) {
    let bytes = word.as_bytes();
    let equals = bytes.iter().position(|&byte| byte == b'=');
    let name = &bytes[..equals.unwrap_or(bytes.len())];
    let value = equals.map(|at| OsString::from_vec(bytes[at + 1..].to_vec()));
    (std::str::from_utf8(name).unwrap_or_default(), value)
}

fn known(options: &[&'static str], name: &str) -> Option<&'static str> {
    options.iter().copied().find(|option| *option == name)
}
