//! `gaffreel`: makes, looks into, checks, recovers, reads and writes volumes, builds and verifies hash trees, and drills
//! volumes with power cuts, by the proved library. docs/gaffreel.md is its page.

mod arguments;
mod commands;
mod failure;
mod files;
mod hexadecimal;
mod journal;
mod layout;
mod progress;
mod volume;

use arguments::Arguments;
use commands::{Command, COMMANDS};
use failure::{Failure, Outcome};
use std::env;
use std::ffi::OsString;
use std::io::{self, BufWriter, Write};
use std::process::ExitCode;

fn main() -> ExitCode {
    let words: Vec<OsString> = env::args_os().skip(1).collect();
    let mut out = BufWriter::new(io::stdout().lock());
    let ended = run(&words, &mut out);
    let flushed = out.flush().map_err(Failure::from);
    match ended.and_then(|outcome| flushed.map(|()| outcome)) {
        Ok(outcome) => outcome.status().into(),
        Err(failure) => {
            if !failure.is_broken_pipe() {
                // There is no place left to say that standard error cannot be written.
                let _ = writeln!(io::stderr(), "gaffreel: {failure}");
            }
            failure.status().into()
        }
    }
}

/// Carries out a command line.
fn run(words: &[OsString], out: &mut dyn Write) -> Result<Outcome, Failure> {
    if let Some(command) = COMMANDS.iter().find(|command| command.named_by(words)) {
        return run_command(command, &words[command.words()..], out);
    }
    let Some((first, rest)) = words.split_first() else {
        return Err(top_usage("a command is missing".into()));
    };
    let subcommands: Vec<&Command> = COMMANDS
        .iter()
        .filter(|command| command.begins_with(first))
        .collect();
    if !subcommands.is_empty() {
        return without_subcommand(&subcommands, rest, out);
    }
    let text = match first.to_str() {
        Some("--help") => overview(),
        Some("--version") => VERSION.into(),
        _ => {
            let unknown = format!("unknown command {}", first.to_string_lossy());
            return Err(top_usage(unknown));
        }
    };
    match rest.first() {
        None => print(out, &text),
        Some(word) => {
            let trailing = format!("unexpected argument {}", word.to_string_lossy());
            Err(top_usage(trailing))
        }
    }
}

/// Tells of the subcommands of a command line that names none.
fn without_subcommand(
    subcommands: &[&Command],
    rest: &[OsString],
    out: &mut dyn Write,
) -> Result<Outcome, Failure> {
    if asks_for_help(rest) {
        let helps: Vec<&str> = subcommands.iter().map(|command| command.help).collect();
        return print(out, &helps.join("\n"));
    }
    let names: Vec<&str> = subcommands.iter().map(|command| command.name).collect();
    Err(top_usage(format!("the command is {}", names.join(" or "))))
}

fn run_command(
    command: &Command,
    words: &[OsString],
    out: &mut dyn Write,
) -> Result<Outcome, Failure> {
    if asks_for_help(words) {
        return print(out, command.help);
    }
    let ended = Arguments::parse(words, &command.options)
        .and_then(|arguments| (command.run)(arguments, out));
    ended.map_err(|failure| match failure {
        Failure::Usage(message) => {
            let name = format!("gaffreel {}", command.name);
            Failure::Usage(hinted(message, &name))
        }
        other => other,
    })
}

const VERSION: &str = concat!("gaffreel ", env!("CARGO_PKG_VERSION"), "\n");

/// Whether `--help` stands among the options.
fn asks_for_help(words: &[OsString]) -> bool {
    let mut options = words.iter().take_while(|word| *word != "--");
    options.any(|word| word == "--help")
}

/// A wrong command line that has no command.
fn top_usage(message: String) -> Failure {
    Failure::Usage(hinted(message, "gaffreel"))
}

/// A message about a command line, with where to read how it should be.
fn hinted(message: String, command: &str) -> String {
    format!("{message} (see {command} --help)")
}

fn print(out: &mut dyn Write, text: &str) -> Result<Outcome, Failure> {
    out.write_all(text.as_bytes())?;
    Ok(Outcome::Clean)
}

/// What `gaffreel --help` prints.
fn overview() -> String {
    let mut text = String::from(
        "Usage: gaffreel COMMAND [OPTION]... ARGUMENT...\n\
         Works on images of Gaffreel volumes and on hash trees, by the proved library.\n\n\
         Commands:\n",
    );
    for command in &COMMANDS {
        text += &format!("  {:<12} {}\n", command.name, command.summary);
    }
    text += "\n\
         gaffreel COMMAND --help tells more of each, and docs/gaffreel.md all.\n\
         --version prints the version. -- ends the options. No option is abbreviated.\n\n\
         Exit status: 0 done and clean; 1 bad sectors or blocks, or a cut not survived;\n\
         2 refused; 3 a wrong command line, or a file that cannot be read or written.\n";
    text
}
