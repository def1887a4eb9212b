//! Testing the tags of many sectors at once. Document 01 has no such call.

use super::{loan, Phase, Refusal, State, TagRule};

/// Tests the tags of `count` sectors from `first` on against the volume's data; staging is not lent, so the batch is not looked
/// at, and a third store of the entry being written back counts as one that exists. Only for a volume that is filling: in other
/// phases data and tag of a sector may be stored only in part.
pub fn verify(
    state: &State,
    volume: &[u8],
    first: u64,
    count: u64,
    rule: TagRule,
) -> Result<(), Refusal> {
    let sectors = loan::volume(volume)?;
    let geometry = state.sound_on(sectors)?.geometry;
    let tags = rule.ready()?;
    if state.phase != Phase::Filling {
        return Err(Refusal::NotNow);
    }
    // Both may be any numbers, so their sum may not exist.
    let end = first.checked_add(count).ok_or(Refusal::Sector)?;
    if end > geometry.provided as u64 {
        return Err(Refusal::Sector);
    }

    for sector in first..end {
        let home = geometry.home(sector).ok_or(Refusal::Sector)?;
        let tag = &volume[home.tag..home.tag + geometry.tag_size];
        if !tags.fit(tag, sector, &sectors[home.data]) {
            return Err(Refusal::Tag { sector });
        }
    }
    Ok(())
}
