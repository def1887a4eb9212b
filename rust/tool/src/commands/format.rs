//! `gaffreel format`.

use super::{reserved, tags, Command, KEY_FILE, RESERVED};
use crate::arguments::{Arguments, Options};
use crate::failure::{Failure, Outcome};
use crate::files;
use crate::layout::sizes;
use gaffreel::volume::{Layout, MOST_SECTORS, SECTOR_LENGTH};
use gaffreel::Refusal;
use std::io::Write;
use std::path::Path;

const TAG_SIZE: &str = "--tag-size";
const RUN: &str = "--run";
const SECTIONS: &str = "--sections";
const SECTORS: &str = "--sectors";
const LENGTH: &str = "--length";

/// The command.
pub const COMMAND: Command = Command {
    name: "format",
    summary: "make a volume",
    help: "\
Usage: gaffreel format IMAGE [OPTION]...
Makes a volume whose sectors are all zero. A file that is not there is made, as long as the
volume needs. A file that is there keeps its length; the place of its superblock must be zero.

  --tag-size T      bytes of a tag: 1 to 32 (default 32)
  --run N           data sectors in a run: a power of two from 8 to 32768 (default 16)
  --sections S      sections of the journal: 1 to 64 (default 1)
  --sectors P       sectors that the volume provides: 1 to 65536 (default 16)
  --reserved R      sectors before the superblock that are never touched: 0 to 64 (default 0)
  --length SECTORS  length of a new image: up to 65536 (default as long as needed)
  --key-file FILE   make tags with the key in FILE: all its bytes, 1 to 256, a newline at its end
                    too. The image keeps neither the key nor that it has one: every command on it
                    needs the same key
",
    options: Options {
        valued: &[TAG_SIZE, RUN, SECTIONS, SECTORS, RESERVED, LENGTH, KEY_FILE],
        plain: &[],
    },
    run,
};

fn run(mut arguments: Arguments, out: &mut dyn Write) -> Result<Outcome, Failure> {
    let layout = layout(&arguments)?;
    let length = arguments.number(LENGTH, 1..=MOST_SECTORS as u64)?;
    let tags = tags(&arguments)?;
    let path = arguments.path("IMAGE")?;
    arguments.finish()?;

    let mut bytes = match files::found(&path)? {
        Some(_) => existing(&path, length)?,
        None => {
            // Longer than any volume, format refuses it.
            let needed = sizes(&layout).sectors.min(MOST_SECTORS);
            let sectors = length.map_or(needed, |length| length as usize);
            vec![0; sectors * SECTOR_LENGTH]
        }
    };
    tags.format(&mut bytes, &layout)
        .map_err(|refusal| refused(&path, refusal))?;
    files::replace(&path, &bytes)?;
    writeln!(
        out,
        "formatted {} sectors: tag {} run {} sections {} provided {}",
        bytes.len() / SECTOR_LENGTH,
        layout.tag_size,
        1u64 << layout.log2_run,
        layout.sections,
        layout.provided
    )?;
    Ok(Outcome::Clean)
}

/// The parameters asked for; those of document 01's example where they are not given.
fn layout(arguments: &Arguments) -> Result<Layout, Failure> {
    let run = arguments.number(RUN, 8..=32_768)?.unwrap_or(16);
    if !run.is_power_of_two() {
        let message = format!("{RUN} is a power of two, not {run}");
        return Err(Failure::usage(message));
    }
    Ok(Layout {
        reserved: reserved(arguments)?,
        log2_run: run.ilog2().into(),
        tag_size: arguments.number(TAG_SIZE, 1..=32)?.unwrap_or(32),
        sections: arguments.number(SECTIONS, 1..=64)?.unwrap_or(1),
        provided: arguments.number(SECTORS, 1..=65_536)?.unwrap_or(16),
    })
}

/// The bytes of an image that is there. It keeps its length, so no other may be asked for.
fn existing(path: &Path, length: Option<u64>) -> Result<Vec<u8>, Failure> {
    let bytes = files::read_image(path)?;
    match length {
        Some(sectors) if sectors as usize * SECTOR_LENGTH != bytes.len() => Err(Failure::file(
            path,
            format!("is there, and keeps its length: leave {LENGTH} out, or name another file"),
        )),
        _ => Ok(bytes),
    }
}

fn refused(path: &Path, refusal: Refusal) -> Failure {
    match refusal {
        Refusal::VolumeTooShort { needed } if needed > MOST_SECTORS as u64 => {
            let meaning = format!(
                "the layout needs {needed} sectors, and no volume has more than {MOST_SECTORS}: \
                 ask for fewer sectors or sections, or for a smaller tag"
            );
            Failure::refused_as(path, refusal, meaning)
        }
        other => Failure::refused(path, other),
    }
}
