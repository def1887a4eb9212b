//! The lengths that lent bytes must have. Any other is refused with 1.

use super::{Geometry, Refusal};

/// A sector's length in bytes.
pub const SECTOR_LENGTH: usize = 512;

/// The greatest volume, in sectors.
pub const VOLUME_LIMIT: usize = 65_536;

/// The bytes of a sector.
pub type Sector = [u8; SECTOR_LENGTH];

/// A volume is whole sectors, at most [`VOLUME_LIMIT`] of them; it may be empty.
pub(super) fn volume(bytes: &[u8]) -> Result<&[Sector], Refusal> {
    match bytes.as_chunks() {
        (sectors, []) if sectors.len() <= VOLUME_LIMIT => Ok(sectors),
        _ => Err(Refusal::LengthOrState),
    }
}

/// The same for a volume that is stored to.
pub(super) fn volume_mut(bytes: &mut [u8]) -> Result<&mut [Sector], Refusal> {
    match bytes.as_chunks_mut() {
        (sectors, []) if sectors.len() <= VOLUME_LIMIT => Ok(sectors),
        _ => Err(Refusal::LengthOrState),
    }
}

/// Staging is one section.
pub(super) fn staging<'a>(geometry: &Geometry, bytes: &'a [u8]) -> Result<&'a [Sector], Refusal> {
    match bytes.as_chunks() {
        (sectors, []) if sectors.len() == geometry.section_sectors => Ok(sectors),
        _ => Err(Refusal::LengthOrState),
    }
}

/// The same for staging that is written.
pub(super) fn staging_mut<'a>(
    geometry: &Geometry,
    bytes: &'a mut [u8],
) -> Result<&'a mut [Sector], Refusal> {
    match bytes.as_chunks_mut() {
        (sectors, []) if sectors.len() == geometry.section_sectors => Ok(sectors),
        _ => Err(Refusal::LengthOrState),
    }
}

/// One sector's bytes.
pub(super) fn sector(bytes: &[u8]) -> Result<&Sector, Refusal> {
    bytes.try_into().map_err(|_| Refusal::LengthOrState)
}

/// The same for a sector that is written.
pub(super) fn sector_mut(bytes: &mut [u8]) -> Result<&mut Sector, Refusal> {
    bytes.try_into().map_err(|_| Refusal::LengthOrState)
}
