//! What kinds of sections a journal has, told from its bytes, so that a test may ask that its generator makes them all.

use crate::{crosses, entry_place, padding_place, stores_of, tag_place, UNUSED};
use reference::volume::{digest_of_sector, Geometry};

/// Something that a journal has.
#[derive(Clone, Copy, Debug, PartialEq, Eq, PartialOrd, Ord)]
pub enum Kind {
    /// No sector has an id.
    Fresh,
    /// A section whose sectors have the same id.
    Whole,
    /// A section whose sectors have different ids.
    Torn,
    /// A section torn in its last sector alone.
    TornInItsLastSector,
    /// A whole section that its id does not go to.
    Misplaced,
    /// Two whole sections with the same id.
    EqualIds,
    /// Whole sections whose ids do not rise by place.
    OutOfOrder,
    /// A sector with the id 2^64 - 1.
    LastId,
    /// The greatest id is 2^64 - 2.
    SecondLastId,
    /// A whole section with no used entry.
    NoEntry,
    /// A whole section whose entries are all used.
    AllEntries,
    /// A used entry of a whole section behind an unused one.
    BehindUnused,
    /// A used entry of a whole section with a sector that is not provided.
    SectorNotProvided,
    /// The same with the first such sector.
    FirstNotProvided,
    /// The same with the last: the next marks an unused entry.
    LastSector,
    /// A used entry of a whole section, with a sector that is provided, whose tag does not fit.
    WrongTag,
    /// A used entry of a whole section, with a sector that is provided, whose tag lies in one sector of the runs.
    InOneSector,
    /// The same with a tag that lies across two.
    AcrossSectors,
    /// A used entry of a whole section, with a sector that is not provided, whose tag would lie in one sector of a run.
    InOneSectorNotProvided,
    /// The same with a tag that would lie across two.
    AcrossSectorsNotProvided,
    /// The same with a sector of the last run of numbers below 2^64.
    AcrossSectorsAtTheEnd,
    /// A used entry of a whole section with bytes that are not zero behind its tag.
    Padding,
}

/// All kinds.
pub const KINDS: [Kind; 22] = [
    Kind::Fresh,
    Kind::Whole,
    Kind::Torn,
    Kind::TornInItsLastSector,
    Kind::Misplaced,
    Kind::EqualIds,
    Kind::OutOfOrder,
    Kind::LastId,
    Kind::SecondLastId,
    Kind::NoEntry,
    Kind::AllEntries,
    Kind::BehindUnused,
    Kind::SectorNotProvided,
    Kind::FirstNotProvided,
    Kind::LastSector,
    Kind::WrongTag,
    Kind::InOneSector,
    Kind::AcrossSectors,
    Kind::InOneSectorNotProvided,
    Kind::AcrossSectorsNotProvided,
    Kind::AcrossSectorsAtTheEnd,
    Kind::Padding,
];

/// A section of a journal.
struct Section<'a> {
    geometry: &'a Geometry,
    number: usize,
    bytes: &'a [u8],
}

/// The kinds of a journal, on a volume that is as long as its layout.
pub fn kinds(volume: &[u8], geometry: &Geometry) -> Vec<Kind> {
    let sections = sections(volume, geometry);
    let ids: Vec<u64> = sections.iter().flat_map(Section::ids).collect();
    let whole: Vec<u64> = sections.iter().filter_map(Section::whole_id).collect();
    let greatest = ids.iter().max().copied().unwrap_or(0);
    let mut sorted = whole.clone();
    sorted.sort();
    let mut kinds: Vec<Kind> = [
        (Kind::Fresh, greatest == 0),
        (Kind::OutOfOrder, sorted != whole),
        (
            Kind::EqualIds,
            sorted.windows(2).any(|two| two[0] == two[1]),
        ),
        (Kind::LastId, greatest == u64::MAX),
        (Kind::SecondLastId, greatest == u64::MAX - 1),
    ]
    .into_iter()
    .filter_map(|(kind, met)| met.then_some(kind))
    .collect();
    for section in &sections {
        kinds.extend(section.kinds());
    }
    kinds.sort();
    kinds.dedup();
    kinds
}

/// The stores that a replay of the journal makes, in order, each by its number among those of its entry: 0 for data, 1 for the
/// tag, 2 for what of the tag lies in the next sector.
pub fn stores_to_replay(volume: &[u8], geometry: &Geometry) -> Vec<u64> {
    let sections = sections(volume, geometry);
    let mut whole: Vec<(u64, &Section)> = sections
        .iter()
        .filter_map(|section| Some((section.whole_id()?, section)))
        .collect();
    whole.sort_by_key(|(id, section)| (*id, section.number));
    whole
        .into_iter()
        .flat_map(|(_, section)| section.used())
        .flat_map(|(_, sector)| 0..stores_of(geometry, sector))
        .collect()
}

fn sections<'a>(volume: &'a [u8], geometry: &'a Geometry) -> Vec<Section<'a>> {
    let journal = &volume[geometry.journal() * 512..geometry.base * 512];
    let sections = journal.chunks_exact(geometry.section_sectors * 512);
    let section = |(number, bytes)| Section {
        geometry,
        number,
        bytes,
    };
    sections.enumerate().map(section).collect()
}

/// The number in the 8 bytes at a place.
fn number_at(bytes: &[u8], place: usize) -> u64 {
    let mut number = [0; 8];
    number.copy_from_slice(&bytes[place..][..8]);
    u64::from_le_bytes(number)
}

impl Section<'_> {
    fn ids(&self) -> impl Iterator<Item = u64> + '_ {
        self.bytes.chunks_exact(512).map(|s| number_at(s, 504))
    }

    /// The id of a section that is whole.
    fn whole_id(&self) -> Option<u64> {
        let id = number_at(self.bytes, 504);
        (id != 0 && self.ids().all(|other| other == id)).then_some(id)
    }

    /// The used entries and their logical sectors.
    fn used(&self) -> impl Iterator<Item = (usize, u64)> + '_ {
        (0..self.geometry.entries)
            .map(|entry| {
                let place = entry_place(self.geometry, entry);
                (entry, number_at(self.bytes, place))
            })
            .filter(|(_, sector)| *sector != UNUSED)
    }

    fn fits(&self, entry: usize, sector: u64) -> bool {
        let place = entry_place(self.geometry, entry);
        let mut data = [0; 512];
        data[..504].copy_from_slice(&self.bytes[(8 + entry) * 512..][..504]);
        data[504..].copy_from_slice(&self.bytes[place + 8..place + 16]);
        let tag = &self.bytes[tag_place(self.geometry, entry)];
        digest_of_sector(sector, &data).starts_with(tag)
    }

    fn has_padding(&self, entry: usize) -> bool {
        let padding = &self.bytes[padding_place(self.geometry, entry)];
        padding.iter().any(|byte| *byte != 0)
    }

    /// The kinds of a used entry.
    fn kinds_of_entry(&self, entry: usize, sector: u64) -> Vec<Kind> {
        let provided = self.geometry.provided as u64;
        let (beyond, across) = (sector >= provided, crosses(self.geometry, sector));
        let at_the_end = sector > u64::MAX - self.geometry.run as u64;
        [
            (Kind::SectorNotProvided, beyond),
            (Kind::FirstNotProvided, sector == provided),
            (Kind::LastSector, sector == UNUSED - 1),
            (Kind::WrongTag, !beyond && !self.fits(entry, sector)),
            (Kind::InOneSector, !beyond && !across),
            (Kind::AcrossSectors, !beyond && across),
            (Kind::InOneSectorNotProvided, beyond && !across),
            (Kind::AcrossSectorsNotProvided, beyond && across),
            (Kind::AcrossSectorsAtTheEnd, at_the_end && across),
            (Kind::Padding, self.has_padding(entry)),
        ]
        .into_iter()
        .filter_map(|(kind, met)| met.then_some(kind))
        .collect()
    }

    fn kinds(&self) -> Vec<Kind> {
        let Some(id) = self.whole_id() else {
            return self.kinds_of_torn();
        };
        let used: Vec<(usize, u64)> = self.used().collect();
        let of_entries = used
            .iter()
            .flat_map(|(entry, sector)| self.kinds_of_entry(*entry, *sector));
        [
            (Kind::Whole, true),
            (Kind::Misplaced, self.geometry.section_of(id) != self.number),
            (Kind::NoEntry, used.is_empty()),
            (Kind::AllEntries, used.len() == self.geometry.entries),
            (
                Kind::BehindUnused,
                used.last().is_some_and(|(entry, _)| entry + 1 > used.len()),
            ),
        ]
        .into_iter()
        .filter_map(|(kind, met)| met.then_some(kind))
        .chain(of_entries)
        .collect()
    }

    fn kinds_of_torn(&self) -> Vec<Kind> {
        let ids: Vec<u64> = self.ids().collect();
        if ids.iter().all(|id| *id == 0) {
            return vec![];
        }
        let (_, others) = ids.split_last().expect("a section has sectors");
        let but_the_last = others[0] != 0 && others.iter().all(|id| *id == others[0]);
        match but_the_last {
            true => vec![Kind::Torn, Kind::TornInItsLastSector],
            false => vec![Kind::Torn],
        }
    }
}
