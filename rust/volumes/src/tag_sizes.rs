//! Which tag sizes the volumes of a test have, so that a test may ask for all of them.

use crate::crosses;
use random::Reached;
use reference::volume::Layout;

/// The lengths of an entry in bytes.
const ENTRY_SIZES: [usize; 4] = [24, 32, 40, 48];

/// Where a tag across two sectors lies, if not where the first sector of the first run's tag area ends.
#[derive(Clone, Copy, PartialEq, Eq, PartialOrd, Ord, Debug)]
enum Farther {
    /// Where a later sector of a tag area ends.
    LaterSector,
    /// In a later run.
    LaterRun,
}

/// What was tried.
#[derive(Default)]
pub struct TagSizes {
    tags: Reached<u64>,
    entries: Reached<usize>,
    /// Whether a sector that is provided has a tag across two sectors.
    across: Reached<bool>,
    /// Both.
    pairs: Reached<(usize, bool)>,
    farther: Reached<Farther>,
}

impl TagSizes {
    /// None yet.
    pub fn new() -> TagSizes {
        TagSizes::default()
    }

    /// Counts a volume, if its layout is in range.
    pub fn add(&mut self, layout: &Layout) {
        let Some(geometry) = layout.geometry() else {
            return;
        };
        self.tags.add(layout.tag_size);
        // The runs behind the second are as the second.
        let run = geometry.run as u64;
        let across: Vec<u64> = (0..layout.provided.min(2 * run))
            .filter(|sector| crosses(&geometry, *sector))
            .collect();
        self.entries.add(geometry.entry_size);
        self.across.add(!across.is_empty());
        self.pairs.add((geometry.entry_size, !across.is_empty()));
        if across
            .iter()
            .any(|sector| sector % run * layout.tag_size > 512)
        {
            self.farther.add(Farther::LaterSector);
        }
        if across.iter().any(|sector| *sector >= run) {
            self.farther.add(Farther::LaterRun);
        }
    }

    /// Each tag size was tried, and so many times each length of an entry, volumes with a tag across two sectors, and volumes
    /// without one. At least a twentieth as often, and once, each length was tried with and without such a tag, and such a tag at
    /// the end of a later sector of a tag area and in a later run.
    pub fn assert_all(&self, least: u64) {
        self.tags.assert_each(1, 1..=32);
        self.entries.assert_each(least, ENTRY_SIZES);
        self.across.assert_each(least, [false, true]);
        let rarer = least.div_ceil(20);
        for across in [false, true] {
            let pairs = ENTRY_SIZES.map(|size| (size, across));
            self.pairs.assert_each(rarer, pairs);
        }
        let farther = [Farther::LaterSector, Farther::LaterRun];
        self.farther.assert_each(rarer, farther);
    }
}
