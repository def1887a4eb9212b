//! So many steps at once. Document 01 has no such call.

use super::{step, Refusal, Said, State, Stepped};

/// What so many steps give.
#[derive(Clone, Copy, Debug, PartialEq, Eq)]
pub struct Advanced {
    /// The last step's answer; of no step, that nothing was stored or said.
    pub last: Result<Stepped, Refusal>,
    /// How many steps did something; each made a store.
    pub done: u64,
    /// Whether a step acknowledged the batch.
    pub acknowledged: bool,
}

/// Takes so many steps, one after the other.
pub fn advance(state: &mut State, volume: &mut [u8], staging: &mut [u8], steps: u64) -> Advanced {
    let mut advanced = Advanced {
        last: Ok(Stepped {
            stored: None,
            said: Said::Nothing,
        }),
        done: 0,
        acknowledged: false,
    };
    for _ in 0..steps {
        advanced.last = step(state, volume, staging);
        match advanced.last {
            Ok(Stepped {
                stored: Some(_),
                said,
            }) => {
                advanced.done += 1;
                advanced.acknowledged |= said == Said::Acknowledged;
            }
            // It changed nothing, so all further ones are the same.
            _ => break,
        }
    }
    advanced
}
