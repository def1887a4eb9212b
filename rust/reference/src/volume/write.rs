//! Writing a sector into the batch.

use super::section::{self, Entry};
use super::{loan, Phase, Refusal, State, TagRule};

/// Adds an entry to the batch in staging, also when the sector is already there.
pub fn write(
    state: &mut State,
    staging: &mut [u8],
    sector: u64,
    bytes: &[u8],
    rule: TagRule,
) -> Result<(), Refusal> {
    let geometry = state.sound()?;
    let staging = loan::staging_mut(&geometry, staging)?;
    let data = loan::sector(bytes)?;
    let tags = rule.ready()?;
    if state.phase != Phase::Filling {
        return Err(Refusal::NotNow);
    }
    if sector >= state.layout.provided {
        return Err(Refusal::Sector);
    }
    let entry = state.count as usize;
    if entry == geometry.entries {
        return Err(Refusal::BatchFull);
    }

    let new = Entry {
        sector,
        data: *data,
        tag: tags.of_sector(sector, data)[..geometry.tag_size].to_vec(),
    };
    section::put_entry(&geometry, staging, entry, &new);
    state.count += 1;
    Ok(())
}
