//! The superblock (document 01, "Volume layout"): 8 sectors that hold the parameters.

use super::{Geometry, Layout, Sector, SECTOR_LENGTH};

/// The superblock's length in sectors.
pub const SUPERBLOCK_SECTORS: usize = 8;

const MAGIC: &[u8; 8] = b"integrt\0";

/// Above the versions that a kernel takes.
const VERSION: u8 = 128;

/// The superblock of a layout that is in range.
pub(super) fn encode(layout: &Layout) -> [Sector; SUPERBLOCK_SECTORS] {
    let mut first = [0; SECTOR_LENGTH];
    first[0..8].copy_from_slice(MAGIC);
    first[8] = VERSION;
    first[9] = layout.log2_run as u8;
    first[10..12].copy_from_slice(&(layout.tag_size as u16).to_le_bytes());
    first[12..16].copy_from_slice(&(layout.sections as u32).to_le_bytes());
    first[16..24].copy_from_slice(&layout.provided.to_le_bytes());
    let mut superblock = [[0; SECTOR_LENGTH]; SUPERBLOCK_SECTORS];
    superblock[0] = first;
    superblock
}

/// The layout that a superblock holds, if it is valid: its numbers are in range and every byte is as format writes it.
pub(super) fn decode(superblock: &[Sector], reserved: u64) -> Option<(Layout, Geometry)> {
    let first = superblock.first()?;
    let number = |bytes: std::ops::Range<usize>| {
        let mut wide = [0; 8];
        wide[..bytes.len()].copy_from_slice(&first[bytes]);
        u64::from_le_bytes(wide)
    };
    let layout = Layout {
        reserved,
        log2_run: number(9..10),
        tag_size: number(10..12),
        sections: number(12..16),
        provided: number(16..24),
    };
    let geometry = layout.geometry()?;
    (superblock == encode(&layout)).then_some((layout, geometry))
}

/// Whether all bytes are zero.
pub(super) fn is_zero(superblock: &[Sector]) -> bool {
    superblock.iter().flatten().all(|byte| *byte == 0)
}
