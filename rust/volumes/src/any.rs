//! Volumes, staging, states and arguments of any kind.

use crate::{crosses, empty_staging, formatted, geometry, padding_place};
use crate::{put_id, put_section, section, Entry, UNUSED};
use random::Random;
use reference::volume::{Geometry, Layout, Phase, State};

/// Numbers of any size, and many at the ends.
pub fn any_number(random: &mut Random) -> u64 {
    match random.number() % 5 {
        0 => random.number() % 8,
        1 => random.number() % 200,
        2 => u64::MAX - random.number() % 4,
        3 => random.number() >> (random.number() % 64),
        _ => random.number(),
    }
}

/// The first of some sectors and how many they are: in most cases all are below the number provided.
pub fn any_range(random: &mut Random, provided: u64) -> (u64, u64) {
    let first = random.number() % provided.saturating_add(1);
    let left = provided - first;
    let any = any_number(random);
    let count = match random.number() % 8 {
        0 => any,
        // The greatest sum that there is, and the first that there is not.
        1 => u64::MAX - first,
        2 => (u64::MAX - first).saturating_add(1),
        3 => left.saturating_add(1),
        4 => left,
        _ => random.number() % left.saturating_add(1),
    };
    match random.number() % 16 {
        0 => (any, count),
        1 => (provided.saturating_add(1), count),
        _ => (first, count),
    }
}

/// Any tag size that there is.
pub fn any_tag_size(random: &mut Random) -> u64 {
    random.length(1..=32) as u64
}

/// The layout with such runs, tags and so many sectors that a tag lies across two sectors; not many more. In most it is the first
/// tag that does, in some a later one of the first run or one of the second run.
pub fn with_tag_across_sectors(random: &mut Random, layout: Layout) -> Layout {
    let shorter = random.pick(&[3, 5, 6, 7, 9, 10, 11, 12, 13, 14, 15]);
    let longer = random.length(17..=31) as u64;
    let tag_size = random.pick(&[shorter, longer, longer, longer]);
    // None of these sizes divides 512, so the tag that ends behind the first sector of the tag area begins in it.
    let first = 512 / tag_size;
    let shortest = u64::from(first.ilog2()) + 1;
    let layout = Layout {
        log2_run: random.pick(&[shortest, shortest, shortest + 1]).min(8),
        tag_size,
        provided: 1,
        ..layout
    };
    let geometry = geometry(&layout);
    let two_runs = (2 << shortest).min(256);
    let across: Vec<u64> = (first..two_runs)
        .filter(|sector| crosses(&geometry, *sector))
        .collect();
    let any = random.pick(&across);
    Layout {
        provided: random.pick(&[first, first, any]) + 1 + random.number() % 8,
        ..layout
    }
}

/// A small layout. A third are made to have a tag that lies across two sectors.
pub fn small_layout(random: &mut Random) -> Layout {
    let layout = Layout {
        reserved: random.pick(&[0, 0, 1, 3]),
        log2_run: random.pick(&[3, 3, 4, 5]),
        tag_size: any_tag_size(random),
        sections: random.pick(&[1, 2, 3, 4]),
        provided: random.length(1..=40) as u64,
    };
    match random.number() % 3 {
        0 => with_tag_across_sectors(random, layout),
        _ => layout,
    }
}

/// A small layout; in a few cases with a parameter of any size.
pub fn any_layout(random: &mut Random) -> Layout {
    let mut layout = small_layout(random);
    if random.number().is_multiple_of(12) {
        let any = any_number(random);
        let field = match random.number() % 5 {
            0 => &mut layout.reserved,
            1 => &mut layout.log2_run,
            2 => &mut layout.tag_size,
            3 => &mut layout.sections,
            _ => &mut layout.provided,
        };
        *field = any;
    }
    layout
}

/// A sector that is provided; where tags lie across two sectors, often such a one.
pub fn any_sector(random: &mut Random, layout: &Layout) -> u64 {
    let any = random.number() % layout.provided;
    let across = across_sectors(random, &geometry(layout), any);
    match random.number() % 3 {
        0 if across < layout.provided => across,
        _ => any,
    }
}

/// A number in the run that this one is in. Where the tags take more than one sector, its tag has the first byte of one that is not
/// the first; so it lies across two, unless it begins with that byte.
pub fn across_sectors(random: &mut Random, geometry: &Geometry, sector: u64) -> u64 {
    let boundaries = (geometry.run * geometry.tag_size - 1) / 512;
    let boundary = 512 * random.length(boundaries.min(1)..=boundaries) as u64;
    let place = boundary / geometry.tag_size as u64;
    sector - sector % geometry.run as u64 + place
}

/// An entry of any kind; most are good.
pub fn any_entry(random: &mut Random, layout: &Layout) -> Entry {
    let any = any_number(random);
    let sector = match random.number() % 16 {
        0 => layout.provided,
        1 => UNUSED - 1,
        2 => any,
        3 | 4 => UNUSED,
        5 => across_sectors(random, &geometry(layout), any),
        6 => across_sectors(random, &geometry(layout), UNUSED),
        _ => any_sector(random, layout),
    };
    let mut data = [0; 512];
    random.fill(&mut data);
    Entry {
        sector,
        data,
        fits: !random.number().is_multiple_of(12),
    }
}

/// A section of good entries, or of entries of any kind.
pub fn any_section(random: &mut Random, layout: &Layout, geometry: &Geometry, id: u64) -> Vec<u8> {
    let count = random.pick(&[0, 1, 2, 3, geometry.entries]);
    let good = random.number().is_multiple_of(2);
    let entries: Vec<Entry> = (0..count)
        .map(|_| match good {
            true => Entry::new(any_sector(random, layout), random.number() as u8),
            false => any_entry(random, layout),
        })
        .collect();
    let mut section = section(geometry, id, &entries);
    if random.number().is_multiple_of(4) {
        fill_padding(random, geometry, &mut section);
    }
    section
}

/// Has any bytes stand behind the tags of a section's entries, where zeros are written.
pub fn fill_padding(random: &mut Random, geometry: &Geometry, section: &mut [u8]) {
    for entry in 0..geometry.entries {
        random.fill(&mut section[padding_place(geometry, entry)]);
    }
}

/// A formatted volume with sections that are whole or torn, in the right place or not, with low, high and equal ids.
pub fn with_journal(random: &mut Random, layout: &Layout) -> Vec<u8> {
    let geometry = geometry(layout);
    let mut volume = formatted(layout, random.length(0..=1));
    let mut id: u64 = random.pick(&[1, 1, 1, 5, 5, u64::MAX - 6, u64::MAX - 1]);
    let misplaced = random.number().is_multiple_of(3);
    for _ in 0..random.length(0..=geometry.sections.min(5) + 1) {
        let section = any_section(random, layout, &geometry, id);
        let number = match random.number() % 2 {
            0 if misplaced => random.length(0..=geometry.sections - 1),
            _ => geometry.section_of(id),
        };
        put_section(&mut volume, &geometry, number, &section);
        if random.number().is_multiple_of(3) {
            let last = geometry.section_sectors - 1;
            let any = random.length(0..=last);
            let sector = random.pick(&[any, any, 0, last]);
            let torn = random.pick(&[0, id - 1, id, id.saturating_add(1), u64::MAX]);
            put_id(&mut volume, &geometry, number, sector, torn);
        }
        id = match random.number() % 8 {
            0 => id,
            // In another place, an equal id.
            3 | 4 if misplaced => id,
            1 => (id - 1).max(1),
            2 => any_number(random).max(1),
            _ => id.saturating_add(1),
        };
    }
    volume
}

/// Changes a few bytes anywhere, or the length.
pub fn spoil(random: &mut Random, bytes: &mut Vec<u8>) {
    match random.number() % 4 {
        0 => bytes.truncate(random.length(0..=bytes.len())),
        1 => bytes.truncate(random.length(0..=bytes.len() / 512) * 512),
        2 => bytes.extend(vec![0; random.pick(&[1, 511, 512, 1024])]),
        _ => {}
    }
    for _ in 0..random.length(0..=6) {
        if !bytes.is_empty() {
            let place = random.length(0..=bytes.len() - 1);
            bytes[place] = random.number() as u8;
        }
    }
}

/// A volume of any kind, for a layout that may be any too; most have a journal.
pub fn any_volume(random: &mut Random, layout: &Layout) -> Vec<u8> {
    let mut volume = match random.number() % 12 {
        0 => {
            let length = random.length(0..=300 * 512);
            random.bytes(length)
        }
        1 => {
            let sectors = random.length(0..=300);
            random.bytes(sectors * 512)
        }
        2 => vec![0; random.length(0..=300) * 512],
        _ if layout.in_range() && layout.provided < 300 && layout.sections < 10 => {
            with_journal(random, layout)
        }
        _ => vec![0; 16 * 512],
    };
    if random.number().is_multiple_of(4) {
        spoil(random, &mut volume);
    }
    // One byte of the superblock.
    let place = layout.reserved.saturating_mul(512) as usize;
    if random.number().is_multiple_of(8) && volume.len() > 4096 && place < volume.len() - 4096 {
        let byte = random.length(0..=30);
        volume[place + byte] = random.number() as u8;
    }
    volume
}

/// Staging of any kind, for a layout that may be any too.
pub fn any_staging(random: &mut Random, layout: &Layout) -> Vec<u8> {
    let Some(geometry) = layout.geometry() else {
        return random.bytes(88 * 512);
    };
    let mut staging = match random.number() % 4 {
        0 => random.bytes(geometry.staging_length()),
        1 => empty_staging(&geometry),
        _ => any_section(random, layout, &geometry, 0),
    };
    if random.number().is_multiple_of(12) {
        spoil(random, &mut staging);
    }
    staging
}

/// A state of any kind with this layout.
pub fn any_state(random: &mut Random, layout: &Layout) -> State {
    let place = any_number(random);
    let any = any_number(random);
    let store = match random.number() % 4 {
        0 => random.pick(&[2, 3, any]),
        _ => random.number() % 2,
    };
    let phase = match random.number() % 4 {
        0 => Phase::Filling,
        1 => Phase::Committing { sector: place },
        2 => Phase::WritingBack {
            entry: place,
            store,
        },
        _ => Phase::Recovering { store: place },
    };
    let recovering = matches!(phase, Phase::Recovering { .. });
    let count = match random.number() % 4 {
        _ if recovering && !random.number().is_multiple_of(8) => 0,
        0 => any_number(random),
        1 => place.saturating_add(1),
        _ => random.number() % 81,
    };
    State {
        layout: *layout,
        phase,
        count,
        id: any_number(random),
    }
}
