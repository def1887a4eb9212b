//! `gaffreel recover`.

use super::{counted, reserved, tags, Command, KEY_FILE, RESERVED};
use crate::arguments::{Arguments, Options};
use crate::failure::{Failure, Outcome};
use crate::files;
use std::io::Write;

/// The command.
pub const COMMAND: Command = Command {
    name: "recover",
    summary: "finish the recovery of an image",
    help: "\
Usage: gaffreel recover IMAGE [OPTION]...
Opens the image, makes all stores of its recovery and replaces it. The journal keeps its sections
until they are written again, so a further recovery makes the same stores and changes nothing.

  --reserved R     sectors before the superblock: 0 to 64 (default 0)
  --key-file FILE  test tags with the key in FILE: all its bytes, 1 to 256, a newline at its end too
",
    options: Options {
        valued: &[RESERVED, KEY_FILE],
        plain: &[],
    },
    run,
};

fn run(mut arguments: Arguments, out: &mut dyn Write) -> Result<Outcome, Failure> {
    let reserved = reserved(&arguments)?;
    let tags = tags(&arguments)?;
    let path = arguments.path("IMAGE")?;
    arguments.finish()?;

    let before = files::read_image(&path)?;
    let volume = tags
        .recovered(before.clone(), reserved)
        .map_err(|refusal| tags.refused(&path, refusal))?;
    let stores = match volume.stores_to_come() {
        0 => {
            writeln!(out, "nothing to replay: the image is left as it was")?;
            return Ok(Outcome::Clean);
        }
        stores => counted(stores, "store"),
    };
    if volume.bytes() == before {
        writeln!(
            out,
            "recovered: {stores}, which changed nothing: the image is left as it was"
        )?;
    } else {
        files::replace(&path, volume.bytes())?;
        writeln!(out, "recovered: {stores}")?;
    }
    Ok(Outcome::Clean)
}
