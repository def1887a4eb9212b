//! The journal of a volume, read from its bytes (document 01, "A journal section").

use crate::layout::{Sizes, ENTRY_HEAD_LENGTH, METADATA_SECTORS};
use crate::volume::Tags;
use gaffreel::volume::Sector;

/// The logical sector of an unused entry.
const UNUSED: u64 = u64::MAX;

/// The bytes of a journal sector before its commit id. In a data sector they are the first bytes of the data.
const ID_PLACE: usize = 504;

/// A section of the journal.
#[derive(Clone, Debug, PartialEq, Eq)]
pub struct Section {
    /// Its place in the journal.
    pub number: usize,
    /// The commit id on its first sector.
    pub id: u64,
    /// The greatest commit id on any of its sectors.
    pub greatest_id: u64,
    /// What the scan found.
    pub condition: Condition,
    /// The used entries of the metadata sectors that the scan reached, by place.
    pub entries: Vec<Entry>,
}

/// What the scan of a section found.
#[derive(Clone, Copy, Debug, PartialEq, Eq)]
pub enum Condition {
    /// Every id is 0.
    NeverUsed,
    /// All sectors carry one id that is not 0.
    Whole,
    /// The scan stops at a sector whose id differs from the first one's.
    Torn {
        /// That sector of the section.
        stop: usize,
        /// The id that it carries.
        id: u64,
    },
}

/// A used entry.
#[derive(Clone, Debug, PartialEq, Eq)]
pub struct Entry {
    /// Its place in the section.
    pub place: usize,
    /// The logical sector.
    pub sector: u64,
    /// The tag, T bytes.
    pub tag: Vec<u8>,
    /// The data; none if the scan stopped before its data sector.
    pub data: Option<Sector>,
}

impl Entry {
    /// Whether the tag fits the data, if that was reached.
    pub fn fits(&self, tags: &Tags) -> Option<bool> {
        let data = self.data.as_ref()?;
        Some(tags.fit(&self.tag, self.sector, data))
    }
}

/// The sections of the journal of a volume that is at least as long as its layout.
pub fn sections(volume: &[u8], sizes: &Sizes) -> Vec<Section> {
    let (sectors, _) = volume.as_chunks();
    let journal = &sectors[sizes.journal..sizes.base];
    let sections = journal.chunks_exact(sizes.section_sectors).enumerate();
    sections
        .map(|(number, section)| read_section(number, section, sizes))
        .collect()
}

/// The sections that open has replayed: the whole ones with a used entry, by rising id, then number.
pub fn replay_order(sections: &[Section]) -> Vec<&Section> {
    let mut order: Vec<&Section> = sections
        .iter()
        .filter(|section| section.condition == Condition::Whole && !section.entries.is_empty())
        .collect();
    order.sort_by_key(|section| (section.id, section.number));
    order
}

/// The next commit id: one more than the greatest on any sector. None if the ids are used up.
pub fn next_id(sections: &[Section]) -> Option<u64> {
    let greatest = sections.iter().map(|section| section.greatest_id).max();
    greatest.unwrap_or(0).checked_add(1)
}

fn read_section(number: usize, section: &[Sector], sizes: &Sizes) -> Section {
    let id = commit_id(&section[0]);
    let stop = section.iter().position(|sector| commit_id(sector) != id);
    let condition = match stop {
        Some(stop) => Condition::Torn {
            stop,
            id: commit_id(&section[stop]),
        },
        None if id == 0 => Condition::NeverUsed,
        None => Condition::Whole,
    };
    // What has id 0 was never committed.
    let reached = match condition {
        _ if id == 0 => &[],
        Condition::Torn { stop, .. } => &section[..stop],
        Condition::Whole | Condition::NeverUsed => section,
    };
    Section {
        number,
        id,
        greatest_id: section.iter().map(commit_id).max().unwrap_or(0),
        condition,
        entries: used_entries(reached, sizes),
    }
}

/// The used entries whose metadata sector is among the sectors reached.
fn used_entries(reached: &[Sector], sizes: &Sizes) -> Vec<Entry> {
    let metadata = &reached[..reached.len().min(METADATA_SECTORS)];
    let slots = metadata.iter().flat_map(|sector| {
        let entries = sector.chunks_exact(sizes.entry_size);
        entries.take(sizes.entries_per_sector)
    });
    slots
        .enumerate()
        .map(|(place, bytes)| read_entry(place, bytes, reached, sizes))
        .filter(|entry| entry.sector != UNUSED)
        .collect()
}

/// An entry. What stands behind its tag, up to the entry's end, is no part of it.
fn read_entry(place: usize, bytes: &[u8], reached: &[Sector], sizes: &Sizes) -> Entry {
    let (head, tag_part) = bytes.split_at(ENTRY_HEAD_LENGTH);
    let (sector, last_data) = head.split_at(8);
    let data = reached.get(METADATA_SECTORS + place).map(|stored| {
        let mut data = *stored;
        data[ID_PLACE..].copy_from_slice(last_data);
        data
    });
    Entry {
        place,
        sector: number(sector),
        tag: tag_part[..sizes.tag_size].to_vec(),
        data,
    }
}

/// The commit id that a journal sector carries.
fn commit_id(sector: &Sector) -> u64 {
    number(&sector[ID_PLACE..])
}

/// The number in 8 bytes.
fn number(bytes: &[u8]) -> u64 {
    u64::from_le_bytes(bytes.try_into().expect("a number has 8 bytes"))
}

#[cfg(test)]
mod tests;
