//! The bytes of a section, in the journal or in staging (document 01, "A journal section"; document 02, order 4).

use super::layout::METADATA_SECTORS;
use super::{Geometry, Sector, SECTOR_LENGTH};
use std::ops::Range;

/// The logical sector of an unused entry.
pub(super) const UNUSED: u64 = u64::MAX;

/// The bytes of a sector of a section before its commit id. In a data sector they are the first bytes of the data.
const ID_PLACE: usize = 504;

/// An entry with its data.
pub(super) struct Entry {
    pub sector: u64,
    pub data: Sector,
    pub tag: Vec<u8>,
}

/// The number in the 8 bytes at a place.
fn number_at(sector: &Sector, place: usize) -> u64 {
    let mut bytes = [0; 8];
    bytes.copy_from_slice(&sector[place..place + 8]);
    u64::from_le_bytes(bytes)
}

/// The commit id that a sector of a section carries.
pub(super) fn commit_id(sector: &Sector) -> u64 {
    number_at(sector, ID_PLACE)
}

/// Has a sector of a section carry a commit id.
pub(super) fn put_commit_id(sector: &mut Sector, id: u64) {
    sector[ID_PLACE..].copy_from_slice(&id.to_le_bytes());
}

/// The metadata sector of an entry and the entry's bytes there.
fn place(geometry: &Geometry, entry: usize) -> (usize, Range<usize>) {
    let start = entry % geometry.entries_per_sector * geometry.entry_size;
    (
        entry / geometry.entries_per_sector,
        start..start + geometry.entry_size,
    )
}

/// The logical sector of an entry.
pub(super) fn logical_sector(geometry: &Geometry, section: &[Sector], entry: usize) -> u64 {
    let (metadata, bytes) = place(geometry, entry);
    number_at(&section[metadata], bytes.start)
}

/// An entry and its data.
pub(super) fn entry(geometry: &Geometry, section: &[Sector], entry: usize) -> Entry {
    let (metadata, bytes) = place(geometry, entry);
    let (head, tag_part) = section[metadata][bytes].split_at(16);
    let mut data = section[METADATA_SECTORS + entry];
    data[ID_PLACE..].copy_from_slice(&head[8..]);
    Entry {
        sector: logical_sector(geometry, section, entry),
        data,
        tag: tag_part[..geometry.tag_size].to_vec(),
    }
}

/// Writes an entry, with zeros behind its tag, and its data. All other bytes stay, the commit ids included.
pub(super) fn put_entry(geometry: &Geometry, section: &mut [Sector], entry: usize, new: &Entry) {
    let (metadata, bytes) = place(geometry, entry);
    let (head, tag_part) = section[metadata][bytes].split_at_mut(16);
    head[..8].copy_from_slice(&new.sector.to_le_bytes());
    head[8..].copy_from_slice(&new.data[ID_PLACE..]);
    let (tag, padding) = tag_part.split_at_mut(geometry.tag_size);
    tag.copy_from_slice(&new.tag);
    padding.fill(0);
    section[METADATA_SECTORS + entry][..ID_PLACE].copy_from_slice(&new.data[..ID_PLACE]);
}

/// Makes an empty section: each entry unused, all else zero.
pub(super) fn clear(geometry: &Geometry, section: &mut [Sector]) {
    section.fill([0; SECTOR_LENGTH]);
    for entry in 0..geometry.entries {
        let (metadata, bytes) = place(geometry, entry);
        section[metadata][bytes][..8].copy_from_slice(&UNUSED.to_le_bytes());
    }
}
