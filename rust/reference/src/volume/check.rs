//! A check of a whole volume.

use super::open::{layout_on, test_journal};
use super::recover::store_from;
use super::tag::Tags;
use super::{loan, Geometry, Layout, Refusal, TagRule};
use std::borrow::Cow;

/// What a check found.
#[derive(Clone, Debug, PartialEq, Eq)]
pub struct Checked {
    /// The volume's parameters.
    pub layout: Layout,
    /// How many stores the recovery made.
    pub stores: u64,
    /// The sectors whose tags don't fit, by rising number.
    pub bad: Vec<u64>,
}

/// Opens a volume, finishes its recovery in a copy and tests every sector. Refused as open is, staging apart.
pub fn check(volume: &[u8], reserved: u64, rule: TagRule) -> Result<Checked, Refusal> {
    let sectors = loan::volume(volume)?;
    let tags = rule.ready()?;
    let (layout, geometry) = layout_on(sectors, reserved)?;
    let (replay, _) = test_journal(&geometry, sectors, &tags)?;

    let mut recovered = Cow::Borrowed(volume);
    let stores = replay.total();
    if stores > 0 {
        let copy = loan::volume_mut(recovered.to_mut())?;
        store_from(&geometry, copy, &replay, 0)?;
    }
    Ok(Checked {
        layout,
        stores,
        bad: bad_sectors(&geometry, &recovered, &tags),
    })
}

/// The sectors whose tags don't fit: runs in order, tags and data side by side.
fn bad_sectors(geometry: &Geometry, volume: &[u8], tags: &Tags) -> Vec<u64> {
    let mut bad = vec![];
    let (sectors, _) = volume.as_chunks();
    let runs = sectors[geometry.base..geometry.sectors].chunks(geometry.tag_area + geometry.run);
    let mut sector = 0;
    for run in runs {
        let (tag_area, data) = run.split_at(geometry.tag_area);
        let area = tag_area.as_flattened().chunks_exact(geometry.tag_size);
        for (tag, data) in area.zip(data) {
            if !tags.fit(tag, sector, data) {
                bad.push(sector);
            }
            sector += 1;
        }
    }
    bad
}
