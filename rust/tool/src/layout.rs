//! What follows from a volume's parameters (document 01, "Volume layout" and "A journal section"; document 02, order 4). The C
//! interface tells the parameters, and has no call for these numbers.

use gaffreel::volume::{Layout, SECTOR_LENGTH};

/// The superblock's length in sectors.
pub const SUPERBLOCK_SECTORS: usize = 8;

/// Metadata sectors of a section.
pub const METADATA_SECTORS: usize = 8;

/// The bytes of an entry before its tag: the logical sector and the last 8 data bytes.
pub const ENTRY_HEAD_LENGTH: usize = 16;

/// The bytes of a metadata sector that entries may take: 8 mac bytes and the commit id stand behind them.
const ENTRIES_LENGTH: usize = 496;

/// The tag's part of an entry is a multiple of this many bytes: zeros stand behind a shorter tag.
const TAG_PART_UNIT: usize = 8;

/// A tag area is a multiple of this many sectors.
const TAG_AREA_UNIT: usize = 8;

/// The numbers that follow from a layout in range. Lengths are in sectors unless they say otherwise.
#[derive(Clone, Copy, Debug, PartialEq, Eq)]
pub struct Sizes {
    /// A tag's length in bytes, T.
    pub tag_size: usize,
    /// Data sectors of a run, N.
    pub run: usize,
    /// A run's tag area, A.
    pub tag_area: usize,
    /// A journal entry's length in bytes.
    pub entry_size: usize,
    /// Entries of a metadata sector.
    pub entries_per_sector: usize,
    /// Entries of a section, E.
    pub entries: usize,
    /// A section's length, M.
    pub section_sectors: usize,
    /// The first sector of the journal.
    pub journal: usize,
    /// The first sector of the first run, B.
    pub base: usize,
    /// The whole layout's length.
    pub sectors: usize,
}

/// The numbers that follow from a layout in range.
pub fn sizes(layout: &Layout) -> Sizes {
    let run = 1 << layout.log2_run;
    let tag_size = layout.tag_size as usize;
    let entry_size = ENTRY_HEAD_LENGTH + tag_size.next_multiple_of(TAG_PART_UNIT);
    let entries_per_sector = ENTRIES_LENGTH / entry_size;
    let entries = METADATA_SECTORS * entries_per_sector;
    let section_sectors = METADATA_SECTORS + entries;
    let journal = layout.reserved as usize + SUPERBLOCK_SECTORS;
    let base = journal + layout.sections as usize * section_sectors;
    let unit_length = TAG_AREA_UNIT * SECTOR_LENGTH;
    let tag_area = TAG_AREA_UNIT * (run * tag_size).div_ceil(unit_length);
    let provided = layout.provided as usize;
    Sizes {
        tag_size,
        run,
        tag_area,
        entry_size,
        entries_per_sector,
        entries,
        section_sectors,
        journal,
        base,
        // The last run has its whole tag area, and only the data sectors still needed.
        sectors: base + provided.div_ceil(run) * tag_area + provided,
    }
}

impl Sizes {
    /// How many stores write an entry for a logical sector back: its data, and the one or two sectors in which its tag lies.
    pub fn stores(&self, sector: u64) -> u64 {
        let place = (sector % self.run as u64) as usize;
        let tag = place * self.tag_size..(place + 1) * self.tag_size;
        let sectors = tag.start / SECTOR_LENGTH..tag.end.div_ceil(SECTOR_LENGTH);
        1 + sectors.len() as u64
    }
}

#[cfg(test)]
pub mod tests {
    use super::sizes;
    use gaffreel::volume::{format, Layout};
    use gaffreel::Refusal;
    use volumes::any::{across_sectors, any_number, any_tag_size};
    use volumes::tag_sizes::TagSizes;

    /// The safe wrapper's type for a layout of the reference.
    pub fn wrapped(layout: &reference::volume::Layout) -> Layout {
        Layout {
            reserved: layout.reserved,
            log2_run: layout.log2_run,
            tag_size: layout.tag_size,
            sections: layout.sections,
            provided: layout.provided,
        }
    }

    /// The reference has the same numbers for any layout in range, and the library the same length.
    #[test]
    fn as_the_reference_has_them() {
        let mut tag_sizes = TagSizes::new();
        random::cases(400, |random| {
            let layout = reference::volume::Layout {
                reserved: random.length(0..=64) as u64,
                log2_run: random.length(3..=15) as u64,
                tag_size: any_tag_size(random),
                sections: random.length(1..=64) as u64,
                provided: random.length(1..=65_536) as u64,
            };
            tag_sizes.add(&layout);
            let expected = layout.geometry().unwrap();
            let layout = wrapped(&layout);
            let sizes = sizes(&layout);
            assert_eq!(sizes.tag_size, expected.tag_size);
            assert_eq!(sizes.run, expected.run);
            assert_eq!(sizes.tag_area, expected.tag_area);
            assert_eq!(sizes.entry_size, expected.entry_size);
            assert_eq!(sizes.entries_per_sector, expected.entries_per_sector);
            assert_eq!(sizes.entries, expected.entries);
            assert_eq!(sizes.section_sectors, expected.section_sectors);
            assert_eq!(sizes.journal, expected.journal());
            assert_eq!(sizes.base, expected.base);
            assert_eq!(sizes.sectors, expected.sectors);
            let needed = sizes.sectors as u64;
            let too_short = Refusal::VolumeTooShort { needed };
            assert_eq!(format(&mut [], &layout), Err(too_short));
            for _ in 0..100 {
                let any = any_number(random);
                for sector in [any, across_sectors(random, &expected, any)] {
                    assert_eq!(sizes.stores(sector), expected.stores(sector));
                }
            }
        });
        tag_sizes.assert_all(50);
    }
}
