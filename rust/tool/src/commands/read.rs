//! `gaffreel read`.

use super::{reserved, tags, Command, KEY_FILE, RESERVED};
use crate::arguments::{Arguments, Options};
use crate::failure::{Failure, Outcome};
use crate::files;
use gaffreel::volume::MOST_SECTORS;
use gaffreel::Refusal;
use std::io::Write;
use std::path::Path;

const COUNT: &str = "--count";
const OUTPUT: &str = "--output";

/// The command.
pub const COMMAND: Command = Command {
    name: "read",
    summary: "read sectors",
    help: "\
Usage: gaffreel read IMAGE SECTOR [OPTION]...
Writes the bytes of SECTOR and those behind it to standard output. The image is recovered in memory
first, and not changed. If a sector cannot be read, nothing is written.

  --count N        sectors to read: 1 to 65536 (default 1)
  --output FILE    write to FILE instead; - is standard output
  --reserved R     sectors before the superblock: 0 to 64 (default 0)
  --key-file FILE  test tags with the key in FILE: all its bytes, 1 to 256, a newline at its end too
",
    options: Options {
        valued: &[COUNT, OUTPUT, RESERVED, KEY_FILE],
        plain: &[],
    },
    run,
};

fn run(mut arguments: Arguments, out: &mut dyn Write) -> Result<Outcome, Failure> {
    let reserved = reserved(&arguments)?;
    let tags = tags(&arguments)?;
    let key_file = arguments.value(KEY_FILE).map(|name| name.to_os_string());
    let count = arguments
        .number(COUNT, 1..=MOST_SECTORS as u64)?
        .unwrap_or(1);
    let output = arguments.value(OUTPUT).map(|name| name.to_os_string());
    let path = arguments.path("IMAGE")?;
    let first = arguments.number_operand("SECTOR", 0..=u64::MAX)?;
    arguments.finish()?;
    if let Some(output) = &output {
        let output = Path::new(output);
        if files::same(&path, output) {
            let reason = "is the image itself: name another file for the output";
            return Err(Failure::file(output, reason));
        }
        if key_file.is_some_and(|key_file| files::same(Path::new(&key_file), output)) {
            let reason = "has the key: name another file for the output";
            return Err(Failure::file(output, reason));
        }
    }

    let volume = tags
        .recovered(files::read_image(&path)?, reserved)
        .map_err(|refusal| tags.refused(&path, refusal))?;
    let mut bytes = Vec::new();
    for i in 0..count {
        let sector = first.saturating_add(i);
        let read = volume.read(sector);
        let refused = |refusal| match refusal {
            Refusal::Sector => Failure::no_sector(&path, sector),
            other => tags.refused(&path, other),
        };
        bytes.extend(read.map_err(refused)?);
    }
    files::write_output(output.as_deref(), &bytes, out)?;
    Ok(Outcome::Clean)
}
