//! The words of a command line: options, with a value or without, and operands.
//!
//! An option is given as `--name value` or `--name=value`, at most once, at any place before `--`. Names are not
//! abbreviated.

use crate::failure::Failure;
use std::collections::VecDeque;
use std::ffi::{OsStr, OsString};
use std::ops::RangeInclusive;
use std::os::unix::ffi::OsStrExt;
use std::path::PathBuf;

/// The options that a command takes.
pub struct Options {
    /// Those with a value.
    pub valued: &'static [&'static str],
    /// Those without one.
    pub plain: &'static [&'static str],
}

/// A command's words, taken apart.
pub struct Arguments {
    operands: VecDeque<OsString>,
    valued: Vec<(&'static str, OsString)>,
    plain: Vec<&'static str>,
}

impl Arguments {
    /// Takes the words behind a command's name apart.
    pub fn parse(words: &[OsString], options: &Options) -> Result<Arguments, Failure> {
        let mut arguments = Arguments {
            operands: VecDeque::new(),
            valued: Vec::new(),
            plain: Vec::new(),
        };
        let mut words = words.iter();
        while let Some(word) = words.next() {
            if word == "--" {
                arguments.operands.extend(words.by_ref().cloned());
            } else if word.as_bytes().starts_with(b"-") && word != "-" {
                arguments.take_option(word, &mut words, options)?;
            } else {
                arguments.operands.push_back(word.clone());
            }
        }
        Ok(arguments)
    }

    fn take_option<'a>(
        &mut self,
        word: &OsStr,
        words: &mut impl Iterator<Item = &'a OsString>,
        options: &Options,
    ) -> Result<(), Failure> {
        let mut parts = word.as_bytes().splitn(2, |byte| *byte == b'=');
        let given = parts.next().unwrap_or_default();
        let attached = parts.next().map(|value| OsStr::from_bytes(value).into());
        let named = |name: &&&'static str| name.as_bytes() == given;
        if let Some(name) = options.valued.iter().find(named) {
            self.only_once(name)?;
            let value = attached.or_else(|| words.next().cloned());
            let value = value.ok_or_else(|| Failure::usage(format!("{name} needs a value")))?;
            self.valued.push((name, value));
            return Ok(());
        }
        match (options.plain.iter().find(named), attached) {
            (Some(name), None) => {
                self.only_once(name)?;
                self.plain.push(name);
                Ok(())
            }
            (Some(name), Some(_)) => Err(Failure::usage(format!("{name} takes no value"))),
            (None, _) => {
                let unknown = format!("unknown option {}", word.to_string_lossy());
                Err(Failure::usage(unknown))
            }
        }
    }

    fn only_once(&self, name: &str) -> Result<(), Failure> {
        if self.value(name).is_some() || self.has(name) {
            return Err(Failure::usage(format!("{name} is given twice")));
        }
        Ok(())
    }

    /// Whether an option without a value is given.
    pub fn has(&self, name: &str) -> bool {
        self.plain.contains(&name)
    }

    /// The value of an option, if it is given.
    pub fn value(&self, name: &str) -> Option<&OsStr> {
        let mut given = self.valued.iter();
        let (_, value) = given.find(|(other, _)| *other == name)?;
        Some(value)
    }

    /// The number that an option is given, if it is.
    pub fn number(&self, name: &str, range: RangeInclusive<u64>) -> Result<Option<u64>, Failure> {
        let value = self.value(name);
        value.map(|value| number(name, value, range)).transpose()
    }

    /// The next operand, called `name` in the help.
    pub fn operand(&mut self, name: &str) -> Result<OsString, Failure> {
        let operand = self.operands.pop_front();
        operand.ok_or_else(|| Failure::usage(format!("{name} is missing")))
    }

    /// The next operand as a file's name.
    pub fn path(&mut self, name: &str) -> Result<PathBuf, Failure> {
        match self.operand(name)? {
            empty if empty.is_empty() => Err(Failure::usage(format!("{name} is empty"))),
            path => Ok(path.into()),
        }
    }

    /// The next operand as a number.
    pub fn number_operand(
        &mut self,
        name: &str,
        range: RangeInclusive<u64>,
    ) -> Result<u64, Failure> {
        number(name, &self.operand(name)?, range)
    }

    /// That no operand is left.
    pub fn finish(self) -> Result<(), Failure> {
        match self.operands.front() {
            None => Ok(()),
            Some(word) => {
                let trailing = format!("unexpected argument {}", word.to_string_lossy());
                Err(Failure::usage(trailing))
            }
        }
    }
}

/// The number that a word of decimal digits gives.
fn number(name: &str, word: &OsStr, range: RangeInclusive<u64>) -> Result<u64, Failure> {
    let text = word.to_string_lossy();
    let digits = !text.is_empty() && text.bytes().all(|byte| byte.is_ascii_digit());
    let value = text
        .parse()
        .ok()
        .filter(|value| digits && range.contains(value));
    value.ok_or_else(|| {
        let (least, most) = (range.start(), range.end());
        Failure::usage(format!(
            "{name} is a number from {least} to {most}, not {text:?}"
        ))
    })
}
