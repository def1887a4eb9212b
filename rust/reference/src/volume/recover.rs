//! A whole recovery at once.

use super::journal::{Journal, Replay};
use super::step::store_replayed;
use super::{loan, Geometry, Phase, Refusal, Sector, State};

/// Makes all stores of a recovery that are still to come, and gives their number: what steps would store, with one scan
/// of the journal. In other phases there are none. The entries are tested for 6 before the first store.
pub fn recover(state: &mut State, volume: &mut [u8], staging: &[u8]) -> Result<u64, Refusal> {
    let volume = loan::volume_mut(volume)?;
    let sound = state.sound_on(volume)?;
    let staging = loan::staging(&sound.geometry, staging)?;
    state.store_exists(&sound.geometry, staging)?;
    let Phase::Recovering { store } = state.phase else {
        return Ok(0);
    };
    let journal = Journal::of(&sound.geometry, volume);
    for (place, _) in sound.replay.stores_from(store) {
        if journal.logical_sector(place) >= state.layout.provided {
            return Err(place.sector_refused());
        }
    }
    store_from(&sound.geometry, volume, &sound.replay, store)?;
    state.phase = Phase::Filling;
    Ok(sound.replay.total() - store)
}

/// Makes the stores of a recovery from one on.
pub(super) fn store_from(
    geometry: &Geometry,
    volume: &mut [Sector],
    replay: &Replay,
    first: u64,
) -> Result<(), Refusal> {
    for (place, numbers) in replay.stores_from(first) {
        for number in numbers {
            store_replayed(geometry, volume, place, number)?;
        }
    }
    Ok(())
}
