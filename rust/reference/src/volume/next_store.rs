//! A step whose store is left to the volume's owner. Document 01 has no such call.

use super::{loan, step, Refusal, State, Stepped, SECTOR_LENGTH};

/// Makes a step on a copy of the volume, and fills `content` with the sector that it stored there, if it stored one.
pub fn next_store(
    state: &mut State,
    volume: &[u8],
    staging: &mut [u8],
    content: &mut [u8],
) -> Result<Stepped, Refusal> {
    let content = loan::sector_mut(content)?;
    let mut copy = volume.to_vec();
    let stepped = step(state, &mut copy, staging)?;
    if let Some(stored) = stepped.stored {
        let place = stored as usize * SECTOR_LENGTH;
        content.copy_from_slice(&copy[place..][..SECTOR_LENGTH]);
    }
    Ok(stepped)
}
