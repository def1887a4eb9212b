//! The state of an open volume, and when it is sound (document 01, "Working a volume"; document 02, order 4).

use super::journal::{Journal, Replay};
use super::layout::MOST_STORES;
use super::section;
use super::{Geometry, Layout, Refusal, Sector};

/// What an open volume is about.
#[derive(Clone, Copy, Debug, PartialEq, Eq)]
pub enum Phase {
    /// Writes are taken into the batch.
    Filling,
    /// The batch is stored in the journal.
    Committing {
        /// The sector of the section that comes next.
        sector: u64,
    },
    /// The batch is stored in the runs.
    WritingBack {
        /// The entry that comes next.
        entry: u64,
        /// Its store that comes next: 0 is its data sector, 1 the sector in which its tag begins, and 2, where the tag goes on in
        /// the next sector, that one.
        store: u64,
    },
    /// The journal's entries are stored in the runs.
    Recovering {
        /// The store that comes next, counted from the first entry's first on; an entry has two or three.
        store: u64,
    },
}

/// The state of an open volume. Any values may stand in it.
#[derive(Clone, Copy, Debug, PartialEq, Eq)]
pub struct State {
    /// The volume's parameters.
    pub layout: Layout,
    /// The phase.
    pub phase: Phase,
    /// The number of entries of the batch in staging.
    pub count: u64,
    /// The next commit id to be given.
    pub id: u64,
}

/// What is known of a sound state and its volume.
pub(super) struct Sound {
    pub geometry: Geometry,
    /// What is replayed; nothing unless recovering.
    pub replay: Replay,
}

impl State {
    /// Tests what can be told without a volume, as write and flush do. An entry's third store counts as one that exists.
    pub(super) fn sound(&self) -> Result<Geometry, Refusal> {
        let geometry = self.layout.geometry().ok_or(Refusal::LengthOrState)?;
        let place_exists = match self.phase {
            Phase::Filling => true,
            Phase::Committing { sector } => {
                sector < geometry.section_sectors as u64 && self.count > 0 && self.id < u64::MAX
            }
            Phase::WritingBack { entry, store } => entry < self.count && store < MOST_STORES,
            Phase::Recovering { .. } => self.count == 0,
        };
        if place_exists && self.count <= geometry.entries as u64 && self.id != 0 {
            Ok(geometry)
        } else {
            Err(Refusal::LengthOrState)
        }
    }

    /// Tests what a volume tells too, as step, read and verify do: the layout fits it, and a recovery's place exists there.
    pub(super) fn sound_on(&self, volume: &[Sector]) -> Result<Sound, Refusal> {
        let geometry = self.sound()?;
        if volume.len() < geometry.sectors {
            return Err(Refusal::LengthOrState);
        }
        let mut replay = Replay { places: vec![] };
        if let Phase::Recovering { store } = self.phase {
            replay = Journal::of(&geometry, volume).replay();
            if store >= replay.total() {
                return Err(Refusal::LengthOrState);
            }
        }
        Ok(Sound { geometry, replay })
    }

    /// Tests what staging tells, as step and read do of a state that is sound without it: the staged entry that is being
    /// written back has the store that comes next.
    pub(super) fn store_exists(
        &self,
        geometry: &Geometry,
        staging: &[Sector],
    ) -> Result<(), Refusal> {
        if let Phase::WritingBack { entry, store } = self.phase {
            let sector = section::logical_sector(geometry, staging, entry as usize);
            if store >= geometry.stores(sector) {
                return Err(Refusal::LengthOrState);
            }
        }
        Ok(())
    }
}
