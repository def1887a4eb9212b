//! The journal of a volume: whole sections, and the entries to replay (document 01, "A journal section").

use super::section::{self, Entry};
use super::tag::Tags;
use super::{Geometry, Refusal, Sector};
use std::ops::Range;

/// A used entry of a whole section.
#[derive(Clone, Copy, Debug, PartialEq, Eq)]
pub(super) struct Place {
    pub section: usize,
    pub entry: usize,
    /// How many stores bring it home.
    pub stores: u64,
}

/// What a recovery replays: the used entries of whole sections by rising id, then section, then place.
pub(super) struct Replay {
    pub places: Vec<Place>,
}

/// The journal of a volume that is as long as its layout.
pub(super) struct Journal<'a> {
    geometry: &'a Geometry,
    sectors: &'a [Sector],
}

impl<'a> Journal<'a> {
    pub fn of(geometry: &'a Geometry, volume: &'a [Sector]) -> Journal<'a> {
        Journal {
            geometry,
            sectors: &volume[geometry.journal()..geometry.base],
        }
    }

    /// The greatest commit id on any sector, torn sections included; 0 if there is none.
    pub fn greatest_id(&self) -> u64 {
        self.sectors
            .iter()
            .map(section::commit_id)
            .max()
            .unwrap_or(0)
    }

    /// The ids and numbers of the whole sections, by rising number.
    pub fn whole_sections(&self) -> Vec<(u64, usize)> {
        (0..self.geometry.sections)
            .filter_map(|number| Some((self.whole_id(number)?, number)))
            .collect()
    }

    /// The id of a section, if it is whole: all its sectors carry one id that is not 0.
    fn whole_id(&self, number: usize) -> Option<u64> {
        let section = self.section(number);
        let id = section::commit_id(&section[0]);
        let whole = id != 0
            && section
                .iter()
                .all(|sector| section::commit_id(sector) == id);
        whole.then_some(id)
    }

    /// What a recovery replays.
    pub fn replay(&self) -> Replay {
        let mut whole = self.whole_sections();
        whole.sort();
        let places = whole
            .into_iter()
            .flat_map(|(_, section)| {
                (0..self.geometry.entries).filter_map(move |entry| self.used(section, entry))
            })
            .collect();
        Replay { places }
    }

    /// An entry of a whole section, if it is used.
    fn used(&self, section: usize, entry: usize) -> Option<Place> {
        let sector = section::logical_sector(self.geometry, self.section(section), entry);
        let stores = self.geometry.stores(sector);
        (sector != section::UNUSED).then_some(Place {
            section,
            entry,
            stores,
        })
    }

    /// The logical sector of an entry.
    pub fn logical_sector(&self, place: Place) -> u64 {
        section::logical_sector(self.geometry, self.section(place.section), place.entry)
    }

    /// An entry and its data.
    pub fn entry(&self, place: Place) -> Entry {
        section::entry(self.geometry, self.section(place.section), place.entry)
    }

    /// Open's test of an entry: its sector is below the number provided, and its tag fits.
    pub fn test(&self, place: Place, tags: &Tags) -> Result<(), Refusal> {
        let entry = self.entry(place);
        if entry.sector >= self.geometry.provided as u64 {
            return Err(place.sector_refused());
        }
        if !tags.fit(&entry.tag, entry.sector, &entry.data) {
            return Err(Refusal::JournalTag {
                section: place.section as u64,
                entry: place.entry as u64,
            });
        }
        Ok(())
    }

    fn section(&self, number: usize) -> &'a [Sector] {
        let length = self.geometry.section_sectors;
        &self.sectors[number * length..(number + 1) * length]
    }
}

impl Replay {
    /// How many stores it makes.
    pub fn total(&self) -> u64 {
        self.places.iter().map(|place| place.stores).sum()
    }

    /// The entries that have stores from this one on, each with those that it has of them, by their numbers among its own.
    pub fn stores_from(&self, store: u64) -> impl Iterator<Item = (Place, Range<u64>)> + '_ {
        let mut before = store;
        self.places.iter().filter_map(move |place| {
            let first = before.min(place.stores);
            before -= first;
            (first < place.stores).then_some((*place, first..place.stores))
        })
    }
}

impl Place {
    /// The refusal of an entry whose logical sector is not below the number provided.
    pub fn sector_refused(self) -> Refusal {
        Refusal::JournalSector {
            section: self.section as u64,
            entry: self.entry as u64,
        }
    }
}
