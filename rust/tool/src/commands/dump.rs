//! `gaffreel dump`.

use super::{counted, reserved, tags, Command, KEY_FILE, RESERVED};
use crate::arguments::{Arguments, Options};
use crate::failure::{Failure, Outcome};
use crate::files;
use crate::journal::{self, Condition, Entry, Section};
use crate::layout::{sizes, Sizes};
use crate::volume::Tags;
use gaffreel::volume::{query, Layout, SECTOR_LENGTH};
use gaffreel::Refusal;
use std::io::{self, Write};

const ENTRIES: &str = "--entries";

/// The command.
pub const COMMAND: Command = Command {
    name: "dump",
    summary: "show superblock, layout and journal",
    help: "\
Usage: gaffreel dump IMAGE [OPTION]...
Shows the numbers of the superblock and what follows from them, each section of the journal, and
what an open would replay. The image is not changed.

  --entries        show each used entry: its sector, and whether its tag fits
  --reserved R     sectors before the superblock: 0 to 64 (default 0)
  --key-file FILE  test tags with the key in FILE: all its bytes, 1 to 256, a newline at its end too
",
    options: Options {
        valued: &[RESERVED, KEY_FILE],
        plain: &[ENTRIES],
    },
    run,
};

fn run(mut arguments: Arguments, out: &mut dyn Write) -> Result<Outcome, Failure> {
    let reserved = reserved(&arguments)?;
    let tags = tags(&arguments)?;
    let with_entries = arguments.has(ENTRIES);
    let path = arguments.path("IMAGE")?;
    arguments.finish()?;

    let bytes = files::read_image(&path)?;
    show(out, bytes, reserved, &tags, with_entries)?.map_err(|refusal| tags.refused(&path, refusal))
}

/// Shows all that can be, and gives how the command ends.
fn show(
    out: &mut dyn Write,
    bytes: Vec<u8>,
    reserved: u64,
    tags: &Tags,
    with_entries: bool,
) -> io::Result<Result<Outcome, Refusal>> {
    let layout = match query(&bytes, reserved) {
        Ok(queried) => queried.layout,
        Err(refusal) => return show_refused(out, refusal),
    };
    let sizes = sizes(&layout);
    let length = bytes.len() / SECTOR_LENGTH;
    show_layout(out, &layout, &sizes, length)?;
    let sections = journal::sections(&bytes, &sizes);
    writeln!(out)?;
    for section in &sections {
        show_section(out, section)?;
        if with_entries {
            show_entries(out, &section.entries, tags)?;
        }
    }
    writeln!(out)?;
    show_replay(out, &sections)?;
    match tags.open(bytes, reserved) {
        Ok(volume) => {
            let stores = counted(volume.stores_to_come(), "store");
            writeln!(out, "open: taken, {stores} to come")?;
            Ok(Ok(Outcome::Clean))
        }
        Err(refusal) => show_refused(out, refusal),
    }
}

fn show_refused(out: &mut dyn Write, refusal: Refusal) -> io::Result<Result<Outcome, Refusal>> {
    writeln!(out, "open: refused {}", refusal.number())?;
    Ok(Err(refusal))
}

fn show_layout(
    out: &mut dyn Write,
    layout: &Layout,
    sizes: &Sizes,
    length: usize,
) -> io::Result<()> {
    writeln!(out, "reserved sectors (r)     {}", layout.reserved)?;
    writeln!(out, "tag size in bytes (T)    {}", layout.tag_size)?;
    writeln!(out, "run length (N)           {}", sizes.run)?;
    writeln!(out, "tag area (A)             {}", sizes.tag_area)?;
    writeln!(out, "journal sections (S)     {}", layout.sections)?;
    writeln!(out, "entries of a section (E) {}", sizes.entries)?;
    writeln!(out, "section length (M)       {}", sizes.section_sectors)?;
    writeln!(out, "provided sectors (P)     {}", layout.provided)?;
    writeln!(out, "base (B)                 {}", sizes.base)?;
    writeln!(out, "sectors needed           {}", sizes.sectors)?;
    writeln!(out, "length of the image      {length}")
}

fn show_section(out: &mut dyn Write, section: &Section) -> io::Result<()> {
    let Section { number, id, .. } = section;
    let used = match section.entries.len() {
        1 => "1 used entry".into(),
        count => format!("{count} used entries"),
    };
    match section.condition {
        Condition::NeverUsed => writeln!(out, "section {number}: never used"),
        Condition::Whole => writeln!(out, "section {number}: commit id {id}, whole, {used}"),
        Condition::Torn { stop, id: other } => writeln!(
            out,
            "section {number}: commit id {id}, torn: the scan stops at sector {stop}, which has id {other}; {used} before it"
        ),
    }
}

fn show_entries(out: &mut dyn Write, entries: &[Entry], tags: &Tags) -> io::Result<()> {
    for entry in entries {
        let fits = match entry.fits(tags) {
            Some(true) => "the tag fits",
            Some(false) => "the tag does not fit",
            None => "the scan does not reach the data",
        };
        let Entry { place, sector, .. } = entry;
        writeln!(out, "  entry {place}: sector {sector}, {fits}")?;
    }
    Ok(())
}

/// Shows the next commit id and the order of the replay.
fn show_replay(out: &mut dyn Write, sections: &[Section]) -> io::Result<()> {
    match journal::next_id(sections) {
        Some(id) => writeln!(out, "next commit id: {id}")?,
        None => writeln!(out, "next commit id: none is left")?,
    }
    let order: Vec<String> = journal::replay_order(sections)
        .iter()
        .map(|section| section.number.to_string())
        .collect();
    match order.is_empty() {
        true => writeln!(out, "sections to replay: none"),
        false => writeln!(out, "sections to replay, in order: {}", order.join(" ")),
    }
}
