//! What each sector of a volume must hold.

use super::history::Batch;
use crate::volume::Volume;
use gaffreel::volume::Sector;
use gaffreel::Refusal;

/// What each sector must hold; none for one that was bad at the start and was not written since.
pub struct Contents {
    sectors: Vec<Option<Sector>>,
}

impl Contents {
    /// The contents of a recovered volume.
    pub fn of(volume: &Volume) -> Result<Contents, Refusal> {
        let sectors = (0..volume.layout().provided).map(|sector| match volume.read(sector) {
            Ok(bytes) => Ok(Some(bytes)),
            Err(Refusal::Tag { .. }) => Ok(None),
            Err(other) => Err(other),
        });
        Ok(Contents {
            sectors: sectors.collect::<Result<_, _>>()?,
        })
    }

    /// Enters the writes of a batch, in order.
    pub fn enter(&mut self, batch: &Batch) {
        for (sector, bytes) in batch {
            self.sectors[*sector as usize] = Some(*bytes);
        }
    }

    /// Reads every sector, and tells of the first that is not as it must be.
    pub fn compare(&self, volume: &Volume) -> Result<(), String> {
        for (number, expected) in (0..).zip(&self.sectors) {
            match (volume.read(number), expected) {
                (Ok(bytes), Some(expected)) if bytes == *expected => {}
                (Err(Refusal::Tag { .. }), None) => {}
                (Ok(_), Some(_)) => return Err(format!("sector {number} has other bytes")),
                (Ok(_), None) => {
                    return Err(format!(
                        "sector {number} was bad, was not written, and is read"
                    ))
                }
                (Err(refusal), _) => {
                    let refused = refusal.number();
                    return Err(format!("sector {number} is refused {refused}: {refusal}"));
                }
            }
        }
        Ok(())
    }
}
