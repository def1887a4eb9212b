//! `gaffreel check`: the lines of document 01, "Bench program", for an image of any size.

use super::{reserved, tags, Command, KEY_FILE, RESERVED};
use crate::arguments::{Arguments, Options};
use crate::failure::{Failure, Outcome};
use crate::files;
use crate::progress::Progress;
use crate::volume::{Tags, Volume};
use gaffreel::Refusal;
use std::io::{self, Write};
use std::path::Path;

/// The command.
pub const COMMAND: Command = Command {
    name: "check",
    summary: "open, recover in memory, and test every sector",
    help: "\
Usage: gaffreel check IMAGE [OPTION]...
Opens the image, finishes its recovery in memory and tests every sector. The image is not changed.
Prints the parameters, the number of stores of the recovery, a line for each bad sector and their
number; or `refused` and the number of the refusal.

  --reserved R     sectors before the superblock: 0 to 64 (default 0)
  --key-file FILE  test tags with the key in FILE: all its bytes, 1 to 256, a newline at its end too

Exit status: 0 no bad sector; 1 bad sectors; 2 refused; 3 usage, or the image cannot be read.
",
    options: Options {
        valued: &[RESERVED, KEY_FILE],
        plain: &[],
    },
    run,
};

fn run(mut arguments: Arguments, out: &mut dyn Write) -> Result<Outcome, Failure> {
    let reserved = reserved(&arguments)?;
    let tags = tags(&arguments)?;
    let path = arguments.path("IMAGE")?;
    arguments.finish()?;

    let bytes = files::read_image(&path)?;
    let volume = match tags.recovered(bytes, reserved) {
        Ok(volume) => volume,
        Err(refusal) => {
            writeln!(out, "refused {}", refusal.number())?;
            return Err(tags.refused(&path, refusal));
        }
    };
    let layout = volume.layout();
    let run = 1u64 << layout.log2_run;
    let (tag_size, sections, provided) = (layout.tag_size, layout.sections, layout.provided);
    writeln!(
        out,
        "tag {tag_size} run {run} sections {sections} provided {provided}"
    )?;
    writeln!(out, "replay {}", volume.stores_to_come())?;
    let bad = bad_sectors(&volume, provided).map_err(|refusal| Failure::refused(&path, refusal))?;
    for sector in &bad {
        writeln!(out, "bad-sector {sector}")?;
    }
    writeln!(out, "bad {}", bad.len())?;
    if bad.is_empty() {
        return Ok(Outcome::Clean);
    }
    warn_of_key(&path, &tags);
    Ok(Outcome::Bad)
}

/// Says, where there are bad sectors under a key, that it may be the key's fault.
fn warn_of_key(path: &Path, tags: &Tags) {
    if let Tags::Hmac(_) = tags {
        let path = path.display();
        // There is no place left to say that standard error cannot be written.
        let _ = writeln!(
            io::stderr(),
            "gaffreel: {path}: bad sectors under this key: where none is good, the key may be wrong"
        );
    }
}

/// The sectors that one call tests: so many that setting the key up, once in a call, costs little, and so few that the bar moves.
const CHUNK: u64 = 1024;

/// The sectors whose tags do not fit. A call stops at the first of them, so the next goes on behind it.
fn bad_sectors(volume: &Volume, provided: u64) -> Result<Vec<u64>, Refusal> {
    let mut progress = Progress::new("checking", provided);
    let mut bad = Vec::new();
    let mut next = 0;
    while next < provided {
        let count = CHUNK.min(provided - next);
        let end = match volume.verify(next, count) {
            Ok(()) => next + count,
            Err(Refusal::Tag { sector }) => {
                bad.push(sector);
                sector + 1
            }
            Err(other) => return Err(other),
        };
        progress.advance_by(end - next);
        next = end;
    }
    Ok(bad)
}
