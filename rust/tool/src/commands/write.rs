//! `gaffreel write`.

use super::{counted, reserved, tags, Command, KEY_FILE, RESERVED};
use crate::arguments::{Arguments, Options};
use crate::failure::{Failure, Outcome};
use crate::files;
use crate::layout::sizes;
use crate::progress::Progress;
use crate::volume::{write_batch, Volume};
use gaffreel::volume::SECTOR_LENGTH;
use gaffreel::Refusal;
use std::ffi::OsStr;
use std::io::{self, Write};
use std::path::Path;

const INPUT: &str = "--input";
const CUT_AFTER: &str = "--cut-after";

/// The command.
pub const COMMAND: Command = Command {
    name: "write",
    summary: "write sectors, or cut the power in the middle of it",
    help: "\
Usage: gaffreel write IMAGE SECTOR [OPTION]...
Writes standard input, which must be whole sectors of 512 bytes, to SECTOR and those behind it. The
image is recovered first. A batch has as many sectors as a section of the journal takes.

  --input FILE        read from FILE instead; - is standard input
  --cut-after STORES  stop after so many stores of the write, as a power cut would
  --reserved R        sectors before the superblock: 0 to 64 (default 0)
  --key-file FILE     make and test tags with the key in FILE: all its bytes, 1 to 256, a newline
                      at its end too. A wrong key shows only where the journal has something to
                      replay: run gaffreel check before
",
    options: Options {
        valued: &[INPUT, CUT_AFTER, RESERVED, KEY_FILE],
        plain: &[],
    },
    run,
};

/// What was done of a write.
#[derive(Default)]
struct Written {
    batches: u64,
    acknowledged: u64,
    stores: u64,
}

fn run(mut arguments: Arguments, out: &mut dyn Write) -> Result<Outcome, Failure> {
    let reserved = reserved(&arguments)?;
    let tags = tags(&arguments)?;
    let cut_after = arguments.number(CUT_AFTER, 0..=u64::MAX)?;
    let input = arguments.value(INPUT).map(|name| name.to_os_string());
    let path = arguments.path("IMAGE")?;
    let first = arguments.number_operand("SECTOR", 0..=u64::MAX)?;
    arguments.finish()?;

    let before = files::read_image(&path)?;
    let mut volume = tags
        .recovered(before.clone(), reserved)
        .map_err(|refusal| tags.refused(&path, refusal))?;
    let bytes = whole_sectors(input.as_deref())?;
    let (sectors, _) = bytes.as_chunks();
    all_provided(&path, &volume, first, sectors.len() as u64)?;
    let written = write(&mut volume, first, sectors, cut_after)
        .map_err(|refusal| Failure::refused(&path, refusal))?;

    let recovered = volume.stores_to_come();
    if volume.bytes() != before {
        files::replace(&path, volume.bytes())?;
    }
    report(out, recovered, &written, cut_after)?;
    Ok(Outcome::Clean)
}

/// The input, if it is whole sectors.
fn whole_sectors(input: Option<&OsStr>) -> Result<Vec<u8>, Failure> {
    let bytes = files::read_input(input)?;
    if bytes.is_empty() || !bytes.len().is_multiple_of(SECTOR_LENGTH) {
        let name = input.unwrap_or(OsStr::new("standard input"));
        let reason = format!(
            "{} bytes are not whole sectors: {SECTOR_LENGTH} bytes are needed for each",
            bytes.len()
        );
        return Err(Failure::file(Path::new(name), reason));
    }
    Ok(bytes)
}

/// That the volume has all sectors to be written, so that no batch is stored before one is refused.
fn all_provided(path: &Path, volume: &Volume, first: u64, count: u64) -> Result<(), Failure> {
    let provided = volume.layout().provided;
    match first.checked_add(count) {
        Some(end) if end <= provided => Ok(()),
        _ => {
            let beyond = first.max(provided);
            Err(Failure::no_sector(path, beyond))
        }
    }
}

/// Writes the sectors in as many batches as are needed, up to the cut.
fn write(
    volume: &mut Volume,
    first: u64,
    sectors: &[[u8; SECTOR_LENGTH]],
    cut_after: Option<u64>,
) -> Result<Written, Refusal> {
    let entries = sizes(volume.layout()).entries;
    let mut written = Written {
        batches: sectors.len().div_ceil(entries) as u64,
        ..Written::default()
    };
    let mut left = cut_after.unwrap_or(u64::MAX);
    let mut progress = Progress::new("writing", written.batches);
    for (sector, batch) in (first..).step_by(entries).zip(sectors.chunks(entries)) {
        write_batch(volume, (sector..).zip(batch))?;
        let advanced = volume.advance(left)?;
        left -= advanced.done;
        written.stores += advanced.done;
        written.acknowledged += u64::from(advanced.acknowledged);
        if left == 0 {
            break;
        }
        progress.advance();
    }
    Ok(written)
}

fn report(
    out: &mut dyn Write,
    recovered: u64,
    written: &Written,
    cut_after: Option<u64>,
) -> io::Result<()> {
    if recovered > 0 {
        writeln!(out, "recovered: {}", counted(recovered, "store"))?;
    }
    let stores = counted(written.stores, "store");
    match cut_after {
        Some(_) => writeln!(out, "cut after {stores}")?,
        None => writeln!(out, "written: {stores}")?,
    }
    let Written {
        acknowledged,
        batches,
        ..
    } = written;
    writeln!(
        out,
        "acknowledged: {acknowledged} of {}",
        match batches {
            1 => "1 batch".into(),
            _ => format!("{batches} batches"),
        }
    )
}
