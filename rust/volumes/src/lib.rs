//! Volumes made byte by byte and at random, for tests and times.

pub mod any;
pub mod keyed;
pub mod kinds;
pub mod tag_sizes;

use reference::volume::{digest_of_sector, Geometry, Layout, TagRule};
use std::ops::Range;

/// The logical sector of an unused entry.
pub const UNUSED: u64 = u64::MAX;

/// What a section's entry is to hold.
#[derive(Clone, Copy)]
pub struct Entry {
    /// The logical sector.
    pub sector: u64,
    /// The sector's bytes.
    pub data: [u8; 512],
    /// Whether its tag is to fit.
    pub fits: bool,
}

impl Entry {
    /// An entry whose bytes are all alike.
    pub fn new(sector: u64, fill: u8) -> Entry {
        Entry {
            sector,
            data: [fill; 512],
            fits: true,
        }
    }

    /// The same with a tag that does not fit.
    pub fn with_wrong_tag(self) -> Entry {
        Entry {
            fits: false,
            ..self
        }
    }
}

/// What follows from a layout that is in range.
pub fn geometry(layout: &Layout) -> Geometry {
    layout.geometry().expect("the layout is in range")
}

/// Whether the tag of a sector of this number lies across two sectors: its first byte and its last are not in the same.
pub fn crosses(geometry: &Geometry, sector: u64) -> bool {
    let first = (sector % geometry.run as u64) as usize * geometry.tag_size;
    let last = first + geometry.tag_size - 1;
    first / 512 != last / 512
}

/// How many stores write an entry for a sector of this number back.
pub fn stores_of(geometry: &Geometry, sector: u64) -> u64 {
    2 + u64::from(crosses(geometry, sector))
}

/// A volume just formatted, without a key. The reserved sectors and `behind` sectors behind the last run hold bytes of their own.
pub fn formatted(layout: &Layout, behind: usize) -> Vec<u8> {
    formatted_by(TagRule::Digest, layout, behind)
}

/// The same by any rule.
pub fn formatted_by(rule: TagRule, layout: &Layout, behind: usize) -> Vec<u8> {
    let geometry = geometry(layout);
    let mut volume = vec![0xa5; (geometry.sectors + behind) * 512];
    let start = geometry.reserved * 512;
    volume[start..start + 8 * 512].fill(0);
    reference::volume::format(&mut volume, layout, rule).expect("format is taken");
    volume
}

/// Where an entry stands in a section.
pub fn entry_place(geometry: &Geometry, entry: usize) -> usize {
    let per_sector = geometry.entries_per_sector;
    entry / per_sector * 512 + entry % per_sector * geometry.entry_size
}

/// Where an entry's tag stands in a section.
pub fn tag_place(geometry: &Geometry, entry: usize) -> Range<usize> {
    let start = entry_place(geometry, entry) + 16;
    start..start + geometry.tag_size
}

/// Where the zeros behind an entry's tag stand in a section, up to the entry's end.
pub fn padding_place(geometry: &Geometry, entry: usize) -> Range<usize> {
    let end = entry_place(geometry, entry) + geometry.entry_size;
    tag_place(geometry, entry).end..end
}

/// The bytes of a section that holds these entries, the others unused, each sector with the id.
pub fn section(geometry: &Geometry, id: u64, entries: &[Entry]) -> Vec<u8> {
    let mut bytes = vec![0; geometry.section_sectors * 512];
    for i in 0..geometry.entries {
        let place = entry_place(geometry, i);
        match entries.get(i) {
            None => bytes[place..place + 8].fill(0xff),
            Some(entry) => {
                let mut tag = digest_of_sector(entry.sector, &entry.data);
                if !entry.fits {
                    tag[geometry.tag_size - 1] ^= 1;
                }
                bytes[place..place + 8].copy_from_slice(&entry.sector.to_le_bytes());
                bytes[place + 8..place + 16].copy_from_slice(&entry.data[504..]);
                bytes[tag_place(geometry, i)].copy_from_slice(&tag[..geometry.tag_size]);
                bytes[(8 + i) * 512..][..504].copy_from_slice(&entry.data[..504]);
            }
        }
    }
    for sector in bytes.chunks_exact_mut(512) {
        sector[504..].copy_from_slice(&id.to_le_bytes());
    }
    bytes
}

/// Puts a section's bytes in the journal of a volume.
pub fn put_section(volume: &mut [u8], geometry: &Geometry, number: usize, section: &[u8]) {
    let start = geometry.journal() * 512 + number * section.len();
    volume[start..start + section.len()].copy_from_slice(section);
}

/// Puts an id on one sector of the journal of a volume.
pub fn put_id(volume: &mut [u8], geometry: &Geometry, section: usize, sector: usize, id: u64) {
    let place = geometry.journal() + section * geometry.section_sectors + sector;
    volume[place * 512 + 504..][..8].copy_from_slice(&id.to_le_bytes());
}

/// Puts an id on all sectors of a section of the journal of a volume.
pub fn put_ids(volume: &mut [u8], geometry: &Geometry, section: usize, id: u64) {
    for sector in 0..geometry.section_sectors {
        put_id(volume, geometry, section, sector, id);
    }
}

/// An empty staging section.
pub fn empty_staging(geometry: &Geometry) -> Vec<u8> {
    section(geometry, 0, &[])
}
