//! Asking for the batch to be committed.

use super::{Phase, Refusal, State};

/// What a flush that is taken gives.
#[derive(Clone, Copy, Debug, PartialEq, Eq)]
pub enum Flushed {
    /// The batch was empty, and is acknowledged at once.
    Acknowledged,
    /// The batch is being committed; a step acknowledges it.
    Committing,
}

/// Begins to commit the batch.
pub fn flush(state: &mut State) -> Result<Flushed, Refusal> {
    state.sound()?;
    if state.phase != Phase::Filling {
        return Err(Refusal::NotNow);
    }
    if state.count == 0 {
        return Ok(Flushed::Acknowledged);
    }
    if state.id == u64::MAX {
        return Err(Refusal::IdsUsedUp);
    }
    state.phase = Phase::Committing { sector: 0 };
    Ok(Flushed::Committing)
}
