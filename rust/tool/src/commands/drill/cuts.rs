//! Power cuts: what is left is opened, recovered and compared, and its recovery is cut too.

use super::contents::Contents;
use crate::layout::sizes;
use crate::volume::{Tags, Volume};
use gaffreel::volume::{Said, SECTOR_LENGTH};
use gaffreel::Refusal;

/// The cuts of a drill.
pub struct Cuts<'a> {
    tags: &'a Tags,
    reserved: u64,
    /// Most cuts of each recovery.
    most: u64,
    /// The bytes before the journal, as they must stay.
    front: Vec<u8>,
    /// The bytes behind the last run, as they must stay.
    rear: Vec<u8>,
    /// How many cuts of the history were made.
    pub made: u64,
    /// How many cuts of recoveries were made.
    pub recoveries_cut: u64,
}

/// A cut that was not survived.
#[derive(Debug)]
pub struct Lost {
    /// How many stores its recovery had made when it was cut again, if it was.
    pub recovery_stores: Option<u64>,
    /// What was not as it must be.
    pub what: String,
}

impl Lost {
    /// Lost by a cut of the history itself.
    pub fn now(what: String) -> Lost {
        Lost {
            recovery_stores: None,
            what,
        }
    }
}

impl Cuts<'_> {
    /// Of a volume that is recovered.
    pub fn new<'a>(volume: &Volume, tags: &'a Tags, most: u64) -> Cuts<'a> {
        let sizes = sizes(volume.layout());
        Cuts {
            tags,
            reserved: volume.layout().reserved,
            most,
            front: volume.bytes()[..sizes.journal * SECTOR_LENGTH].to_vec(),
            rear: volume.bytes()[sizes.sectors * SECTOR_LENGTH..].to_vec(),
            made: 0,
            recoveries_cut: 0,
        }
    }

    /// Cuts when the volume has these bytes. What is left must hold the contents, however often it is cut.
    pub fn cut(&mut self, left: &[u8], contents: &Contents) -> Result<(), Lost> {
        self.made += 1;
        let recovered = self.recover(left).map_err(Lost::now)?;
        contents.compare(&recovered).map_err(Lost::now)?;
        self.cut_recovery(left, recovered.bytes(), contents)
    }

    /// Cuts the recovery of what is left after each of its stores, or after as many as are asked for.
    fn cut_recovery(
        &mut self,
        left: &[u8],
        recovered: &[u8],
        contents: &Contents,
    ) -> Result<(), Lost> {
        let refused = |refusal: Refusal| Lost::now(refusal.to_string());
        let recovering = self.tags.open(left.to_vec(), self.reserved);
        let mut recovering = recovering.map_err(refused)?;
        let total = recovering.stores_to_come();
        let cuts = total.min(self.most);
        let mut made = 0;
        for cut in 1..=cuts {
            let next = (u128::from(cut) * u128::from(total) / u128::from(cuts)) as u64;
            recovering
                .advance(next - made)
                .map_err(|stopped| refused(stopped.refusal))?;
            made = next;
            self.recoveries_cut += 1;
            let survived = self.recover(recovering.bytes()).and_then(|again| {
                // Every sector of the same bytes was read just now.
                match again.bytes() == recovered {
                    true => Ok(()),
                    false => contents.compare(&again),
                }
            });
            survived.map_err(|what| Lost {
                recovery_stores: Some(made),
                what,
            })?;
        }
        Ok(())
    }

    /// Opens what is left and finishes its recovery, which must make as many stores as open says.
    fn recover(&self, left: &[u8]) -> Result<Volume, String> {
        let refused = |refusal: Refusal| format!("refused {}: {refusal}", refusal.number());
        let volume = self.tags.open(left.to_vec(), self.reserved);
        let mut volume = volume.map_err(refused)?;
        let due = volume.stores_to_come();
        let advanced = volume
            .advance(u64::MAX)
            .map_err(|stopped| refused(stopped.refusal))?;
        if advanced.done != due || advanced.last.said != Said::Filling {
            let made = advanced.done;
            return Err(format!("the recovery made {made} stores and not {due}"));
        }
        let bytes = volume.bytes();
        if !bytes.starts_with(&self.front) || !bytes.ends_with(&self.rear) {
            return Err("bytes outside journal and runs were changed".into());
        }
        Ok(volume)
    }
}
