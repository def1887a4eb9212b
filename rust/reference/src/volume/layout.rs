//! A volume's parameters and what follows from them (document 01, "Volume layout" and "A journal section"; document 02, order 4).

use super::{superblock::SUPERBLOCK_SECTORS, SECTOR_LENGTH};

/// A volume's parameters. Any numbers may stand in it.
#[derive(Clone, Copy, Debug, PartialEq, Eq)]
pub struct Layout {
    /// Reserved sectors before the superblock, r.
    pub reserved: u64,
    /// The base-2 logarithm of the run length N.
    pub log2_run: u64,
    /// A tag's length in bytes, T.
    pub tag_size: u64,
    /// Sections of the journal, S.
    pub sections: u64,
    /// Data sectors that the volume provides, P.
    pub provided: u64,
}

/// What follows from a layout that is in range. Lengths are in sectors unless they say otherwise.
#[derive(Clone, Copy, Debug, PartialEq, Eq)]
pub struct Geometry {
    /// Reserved sectors, r.
    pub reserved: usize,
    /// Data sectors of a run, N.
    pub run: usize,
    /// A tag's length in bytes, T.
    pub tag_size: usize,
    /// Sections of the journal, S.
    pub sections: usize,
    /// Data sectors that the volume provides, P.
    pub provided: usize,
    /// A journal entry's length in bytes.
    pub entry_size: usize,
    /// Entries of a metadata sector.
    pub entries_per_sector: usize,
    /// Entries of a section, E.
    pub entries: usize,
    /// A section's length, M.
    pub section_sectors: usize,
    /// A run's tag area, A.
    pub tag_area: usize,
    /// The first sector of the first run, B.
    pub base: usize,
    /// The whole layout's length.
    pub sectors: usize,
}

/// Where a logical sector and its tag stand.
#[derive(Clone, Copy, Debug, PartialEq, Eq)]
pub struct Home {
    /// The volume's sector that has the data.
    pub data: usize,
    /// The volume's byte at which the tag starts.
    pub tag: usize,
}

/// Metadata sectors of a section.
pub(super) const METADATA_SECTORS: usize = 8;

/// The bytes of a metadata sector that entries may take: behind them stand 8 mac bytes and the commit id.
const ENTRIES_LENGTH: usize = 496;

/// The bytes of an entry before its tag: the logical sector and the last 8 data bytes.
const ENTRY_HEAD_LENGTH: usize = 16;

/// The tag's part of an entry is a multiple of this many bytes. Only the entry is rounded: tags in the runs stand side by side.
const TAG_PART_UNIT: usize = 8;

/// A tag area is a multiple of this many sectors.
const TAG_AREA_UNIT: usize = 8;

/// The most stores that write an entry back: its data sector, and the two sectors in which its tag may lie.
pub(super) const MOST_STORES: u64 = 3;

impl Layout {
    /// Whether each parameter is in its range.
    pub fn in_range(&self) -> bool {
        self.reserved <= 64
            && (3..=15).contains(&self.log2_run)
            && (1..=32).contains(&self.tag_size)
            && (1..=64).contains(&self.sections)
            && (1..=65_536).contains(&self.provided)
    }

    /// What follows from the parameters, if they are in range. The whole layout may be longer than any volume.
    pub fn geometry(&self) -> Option<Geometry> {
        if !self.in_range() {
            return None;
        }
        let reserved = self.reserved as usize;
        let run = 1 << self.log2_run;
        let tag_size = self.tag_size as usize;
        let sections = self.sections as usize;
        let provided = self.provided as usize;

        let entry_size = ENTRY_HEAD_LENGTH + tag_size.next_multiple_of(TAG_PART_UNIT);
        let entries_per_sector = ENTRIES_LENGTH / entry_size;
        let entries = METADATA_SECTORS * entries_per_sector;
        let section_sectors = METADATA_SECTORS + entries;

        let unit_length = TAG_AREA_UNIT * SECTOR_LENGTH;
        let tag_area = TAG_AREA_UNIT * (run * tag_size).div_ceil(unit_length);
        let base = reserved + SUPERBLOCK_SECTORS + sections * section_sectors;
        let runs = provided.div_ceil(run);
        Some(Geometry {
            reserved,
            run,
            tag_size,
            sections,
            provided,
            entry_size,
            entries_per_sector,
            entries,
            section_sectors,
            tag_area,
            base,
            sectors: base + runs * tag_area + provided,
        })
    }
}

impl Geometry {
    /// Where a logical sector and its tag stand, if it is below the number provided.
    pub fn home(&self, sector: u64) -> Option<Home> {
        if sector >= self.provided as u64 {
            return None;
        }
        let sector = sector as usize;
        let place = sector % self.run;
        let start = self.base + sector / self.run * (self.tag_area + self.run);
        Some(Home {
            data: start + self.tag_area + place,
            tag: start * SECTOR_LENGTH + place * self.tag_size,
        })
    }

    /// How many stores write an entry for a logical sector back: two, and three where its tag lies across two sectors. Any
    /// number has them, whether it is provided or not.
    pub fn stores(&self, sector: u64) -> u64 {
        let place = (sector % self.run as u64) as usize;
        let start = place * self.tag_size % SECTOR_LENGTH;
        if start + self.tag_size > SECTOR_LENGTH {
            MOST_STORES
        } else {
            2
        }
    }

    /// The section that a commit id goes to. Ids start at 1.
    pub fn section_of(&self, id: u64) -> usize {
        ((id - 1) % self.sections as u64) as usize
    }

    /// The volume's sector at which the journal starts.
    pub fn journal(&self) -> usize {
        self.reserved + SUPERBLOCK_SECTORS
    }

    /// Staging's length in bytes: one section.
    pub fn staging_length(&self) -> usize {
        self.section_sectors * SECTOR_LENGTH
    }
}
