//! The commands, one file to each.

mod check;
mod drill;
mod dump;
mod format;
mod read;
mod recover;
mod tree;
mod write;

use crate::arguments::{Arguments, Options};
use crate::failure::{Failure, Outcome};
use crate::files;
use crate::volume::Tags;
use gaffreel::LONGEST_KEY;
use std::ffi::{OsStr, OsString};
use std::io::Write;
use std::path::Path;

/// A command.
pub struct Command {
    /// Its name, of one word or two.
    pub name: &'static str,
    /// One line on it.
    pub summary: &'static str,
    /// What `--help` prints.
    pub help: &'static str,
    /// The options that it takes.
    pub options: Options,
    /// Carries it out, and prints to the output given.
    pub run: fn(Arguments, &mut dyn Write) -> Result<Outcome, Failure>,
}

/// All commands, in the order of the help.
pub const COMMANDS: [Command; 9] = [
    format::COMMAND,
    dump::COMMAND,
    check::COMMAND,
    recover::COMMAND,
    read::COMMAND,
    write::COMMAND,
    tree::BUILD,
    tree::VERIFY,
    drill::COMMAND,
];

impl Command {
    /// How many words the name has.
    pub fn words(&self) -> usize {
        self.name.split(' ').count()
    }

    /// Whether a command line starts with the name.
    pub fn named_by(&self, words: &[OsString]) -> bool {
        let mut name = self.name.split(' ').enumerate();
        name.all(|(i, part)| words.get(i).is_some_and(|word| word == part))
    }

    /// Whether the name's first word is this one.
    pub fn begins_with(&self, word: &OsStr) -> bool {
        self.name
            .split(' ')
            .next()
            .is_some_and(|first| word == first)
    }
}

/// The option for the number of reserved sectors before the superblock.
const RESERVED: &str = "--reserved";

/// The number of reserved sectors; 0 if it is not given.
fn reserved(arguments: &Arguments) -> Result<u64, Failure> {
    Ok(arguments.number(RESERVED, 0..=64)?.unwrap_or(0))
}

/// The option for the file that has the key. It is no word of the command line, which other users of the machine can see.
const KEY_FILE: &str = "--key-file";

/// What makes and tests the tags: the key in the file that is named, if one is.
fn tags(arguments: &Arguments) -> Result<Tags, Failure> {
    let Some(name) = arguments.value(KEY_FILE) else {
        return Ok(Tags::Digest);
    };
    let path = Path::new(name);
    let key = files::read_at_most(path, LONGEST_KEY as u64 + 1)?;
    if key.is_empty() || key.len() > LONGEST_KEY {
        let fault = match key.len() {
            0 => "is empty",
            _ => "is too long for a key",
        };
        let reason = format!(
            "{fault}: all bytes of the file are the key, a newline at its end too, and a key has 1 to {LONGEST_KEY}"
        );
        return Err(Failure::file(path, reason));
    }
    Ok(Tags::Hmac(key))
}

/// A number with the word for what is counted, which is put in the plural by an s.
fn counted(number: u64, what: &str) -> String {
    match number {
        1 => format!("1 {what}"),
        _ => format!("{number} {what}s"),
    }
}
