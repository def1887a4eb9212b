//! Opening a volume. Nothing is stored on it.

use super::journal::{Journal, Replay};
use super::tag::Tags;
use super::{loan, section, superblock};
use super::{Geometry, Layout, Phase, Refusal, Sector, State, TagRule, SUPERBLOCK_SECTORS};

/// What an open that is taken gives.
#[derive(Clone, Copy, Debug, PartialEq, Eq)]
pub struct Opened {
    /// The state, recovering or filling.
    pub state: State,
    /// How many stores the recovery will make.
    pub stores_to_come: u64,
}

/// Opens a volume that was formatted with `reserved` reserved sectors, and makes staging an empty section.
pub fn open(
    volume: &[u8],
    reserved: u64,
    staging: &mut [u8],
    rule: TagRule,
) -> Result<Opened, Refusal> {
    let volume = loan::volume(volume)?;
    let tags = rule.ready()?;
    let (layout, geometry) = layout_on(volume, reserved)?;
    let staging = loan::staging_mut(&geometry, staging)?;
    let (replay, id) = test_journal(&geometry, volume, &tags)?;

    section::clear(&geometry, staging);
    let stores_to_come = replay.total();
    let phase = if stores_to_come == 0 {
        Phase::Filling
    } else {
        Phase::Recovering { store: 0 }
    };
    Ok(Opened {
        state: State {
            layout,
            phase,
            count: 0,
            id,
        },
        stores_to_come,
    })
}

/// The layout in the superblock: open's refusals 2, 5, 3, 4 and 5.
pub(super) fn layout_on(volume: &[Sector], reserved: u64) -> Result<(Layout, Geometry), Refusal> {
    if reserved > 64 {
        return Err(Refusal::Parameter);
    }
    let start = reserved as usize;
    let superblock =
        volume
            .get(start..start + SUPERBLOCK_SECTORS)
            .ok_or(Refusal::VolumeTooShort {
                needed: reserved + SUPERBLOCK_SECTORS as u64,
            })?;
    if superblock::is_zero(superblock) {
        return Err(Refusal::SuperblockZero);
    }
    let (layout, geometry) =
        superblock::decode(superblock, reserved).ok_or(Refusal::SuperblockNotValid)?;
    if volume.len() < geometry.sectors {
        return Err(Refusal::VolumeTooShort {
            needed: geometry.sectors as u64,
        });
    }
    Ok((layout, geometry))
}

/// What is to be replayed and the next id: open's refusals 10, 11, 6 and 7.
pub(super) fn test_journal(
    geometry: &Geometry,
    volume: &[Sector],
    tags: &Tags,
) -> Result<(Replay, u64), Refusal> {
    let journal = Journal::of(geometry, volume);
    let next_id = journal
        .greatest_id()
        .checked_add(1)
        .ok_or(Refusal::IdsUsedUp)?;
    for (id, section) in journal.whole_sections() {
        if geometry.section_of(id) != section {
            return Err(Refusal::SectionMisplaced {
                section: section as u64,
            });
        }
    }
    let replay = journal.replay();
    for place in &replay.places {
        journal.test(*place, tags)?;
    }
    Ok((replay, next_id))
}
