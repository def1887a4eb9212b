//! Making a volume.

use super::{loan, superblock};
use super::{Layout, Refusal, TagRule, SECTOR_LENGTH, SUPERBLOCK_SECTORS};

/// Makes a volume whose superblock is still zero: every sector provided is zero and has its tag. The reserved sectors
/// and those behind the last run stay as they are.
pub fn format(volume: &mut [u8], layout: &Layout, rule: TagRule) -> Result<(), Refusal> {
    let sectors = loan::volume_mut(volume)?;
    let tags = rule.ready()?;
    let geometry = layout.geometry().ok_or(Refusal::Parameter)?;
    if sectors.len() < geometry.sectors {
        return Err(Refusal::VolumeTooShort {
            needed: geometry.sectors as u64,
        });
    }
    let superblock = geometry.reserved..geometry.reserved + SUPERBLOCK_SECTORS;
    if !superblock::is_zero(&sectors[superblock.clone()]) {
        return Err(Refusal::SuperblockNotZero);
    }

    const ZERO: [u8; SECTOR_LENGTH] = [0; SECTOR_LENGTH];
    sectors[geometry.journal()..geometry.sectors].fill(ZERO);
    sectors[superblock].copy_from_slice(&superblock::encode(layout));
    for sector in 0..layout.provided {
        let home = geometry.home(sector).expect("it is below the number");
        let tag = &tags.of_sector(sector, &ZERO)[..geometry.tag_size];
        volume[home.tag..home.tag + geometry.tag_size].copy_from_slice(tag);
    }
    Ok(())
}
