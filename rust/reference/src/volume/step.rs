//! Making one sector store.

use super::journal::{Journal, Place, Replay};
use super::section::{self, Entry};
use super::{loan, Geometry, Home, Phase, Refusal, Sector, State, SECTOR_LENGTH};

/// What a step that is taken gives.
#[derive(Clone, Copy, Debug, PartialEq, Eq)]
pub struct Stepped {
    /// The volume's sector that was stored, or that `next_store` leaves to be stored; none when filling.
    pub stored: Option<u64>,
    /// What the step says of the volume.
    pub said: Said,
}

/// What a step says of the volume.
#[derive(Clone, Copy, Debug, PartialEq, Eq)]
pub enum Said {
    /// Nothing.
    Nothing,
    /// The batch is acknowledged: it survives a cut.
    Acknowledged,
    /// The volume is filling.
    Filling,
}

/// Makes the store that comes next, or none when filling.
pub fn step(state: &mut State, volume: &mut [u8], staging: &mut [u8]) -> Result<Stepped, Refusal> {
    let volume = loan::volume_mut(volume)?;
    let sound = state.sound_on(volume)?;
    let geometry = &sound.geometry;
    let staging = loan::staging_mut(geometry, staging)?;
    state.store_exists(geometry, staging)?;
    match state.phase {
        Phase::Filling => Ok(Stepped {
            stored: None,
            said: Said::Filling,
        }),
        Phase::Committing { sector } => Ok(commit(state, geometry, volume, staging, sector)),
        Phase::WritingBack { entry, store } => {
            write_back(state, geometry, volume, staging, entry, store)
        }
        Phase::Recovering { store } => replay(state, geometry, volume, &sound.replay, store),
    }
}

/// Stores a sector of staging in the journal, with the id put in.
fn commit(
    state: &mut State,
    geometry: &Geometry,
    volume: &mut [Sector],
    staging: &[Sector],
    sector: u64,
) -> Stepped {
    let place = sector as usize;
    let section = geometry.section_of(state.id);
    let stored = geometry.journal() + section * geometry.section_sectors + place;
    volume[stored] = staging[place];
    section::put_commit_id(&mut volume[stored], state.id);

    let last = place + 1 == geometry.section_sectors;
    if last {
        state.id += 1;
        state.phase = Phase::WritingBack { entry: 0, store: 0 };
    } else {
        state.phase = Phase::Committing { sector: sector + 1 };
    }
    Stepped {
        stored: Some(stored as u64),
        said: if last {
            Said::Acknowledged
        } else {
            Said::Nothing
        },
    }
}

/// Makes one of a staged entry's stores. After the last entry's last, staging is an empty section.
fn write_back(
    state: &mut State,
    geometry: &Geometry,
    volume: &mut [Sector],
    staging: &mut [Sector],
    entry: u64,
    store: u64,
) -> Result<Stepped, Refusal> {
    let staged = section::entry(geometry, staging, entry as usize);
    let home = geometry
        .home(staged.sector)
        .ok_or(Refusal::StagedSector { entry })?;
    let stored = store_home(volume, home, &staged, store);

    state.phase = if store + 1 < geometry.stores(staged.sector) {
        let store = store + 1;
        Phase::WritingBack { entry, store }
    } else if entry + 1 < state.count {
        let entry = entry + 1;
        Phase::WritingBack { entry, store: 0 }
    } else {
        state.count = 0;
        section::clear(geometry, staging);
        Phase::Filling
    };
    Ok(stepped(state, stored))
}

/// Makes a store of a recovery, one that exists.
fn replay(
    state: &mut State,
    geometry: &Geometry,
    volume: &mut [Sector],
    replay: &Replay,
    store: u64,
) -> Result<Stepped, Refusal> {
    let (place, numbers) = replay.stores_from(store).next().expect("it exists");
    let stored = store_replayed(geometry, volume, place, numbers.start)?;
    let next = store + 1;
    state.phase = if next < replay.total() {
        Phase::Recovering { store: next }
    } else {
        Phase::Filling
    };
    Ok(stepped(state, stored))
}

/// Makes one of the stores of a journal entry.
pub(super) fn store_replayed(
    geometry: &Geometry,
    volume: &mut [Sector],
    place: Place,
    number: u64,
) -> Result<usize, Refusal> {
    let entry = Journal::of(geometry, volume).entry(place);
    let home = geometry.home(entry.sector).ok_or(place.sector_refused())?;
    Ok(store_home(volume, home, &entry, number))
}

/// Makes one of an entry's stores: its data sector; the sector in which its tag begins, with only the tag's bytes up to the
/// sector's end replaced; the next, with only the tag's other bytes replaced.
fn store_home(volume: &mut [Sector], home: Home, entry: &Entry, number: u64) -> usize {
    let sector = home.tag / SECTOR_LENGTH;
    let place = home.tag % SECTOR_LENGTH;
    let (lower, upper) = entry
        .tag
        .split_at(entry.tag.len().min(SECTOR_LENGTH - place));
    match number {
        0 => {
            volume[home.data] = entry.data;
            home.data
        }
        1 => {
            volume[sector][place..place + lower.len()].copy_from_slice(lower);
            sector
        }
        _ => {
            volume[sector + 1][..upper.len()].copy_from_slice(upper);
            sector + 1
        }
    }
}

/// The answer to a store in the runs.
fn stepped(state: &State, stored: usize) -> Stepped {
    Stepped {
        stored: Some(stored as u64),
        said: match state.phase {
            Phase::Filling => Said::Filling,
            _ => Said::Nothing,
        },
    }
}
