//! Reading a sector.

use super::{loan, section};
use super::{Phase, Refusal, State, TagRule};

/// Copies out the newest data of a sector: the batch's, else the volume's if its tag fits.
pub fn read(
    state: &State,
    volume: &[u8],
    staging: &[u8],
    sector: u64,
    out: &mut [u8],
    rule: TagRule,
) -> Result<(), Refusal> {
    let sectors = loan::volume(volume)?;
    let geometry = state.sound_on(sectors)?.geometry;
    let staging = loan::staging(&geometry, staging)?;
    state.store_exists(&geometry, staging)?;
    let out = loan::sector_mut(out)?;
    let tags = rule.ready()?;
    if matches!(state.phase, Phase::Recovering { .. }) {
        return Err(Refusal::NotNow);
    }
    let home = geometry.home(sector).ok_or(Refusal::Sector)?;

    let newest = (0..state.count as usize)
        .rev()
        .find(|entry| section::logical_sector(&geometry, staging, *entry) == sector);
    if let Some(entry) = newest {
        *out = section::entry(&geometry, staging, entry).data;
        return Ok(());
    }
    let data = &sectors[home.data];
    let tag = &volume[home.tag..home.tag + geometry.tag_size];
    if !tags.fit(tag, sector, data) {
        return Err(Refusal::Tag { sector });
    }
    *out = *data;
    Ok(())
}
