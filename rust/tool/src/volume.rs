//! Volumes in memory, as the commands use them.

use crate::failure::Failure;
use gaffreel::volume::{self, Layout, Sector};
use gaffreel::{hmac_sha256, sha256, Refusal};
use std::path::Path;

/// An open volume that has its bytes.
pub type Volume = gaffreel::volume::Volume<Vec<u8>>;

/// What makes and tests the tags of a volume: SHA-256, or HMAC under a key.
pub enum Tags {
    Digest,
    Hmac(Vec<u8>),
}

impl Tags {
    /// Makes a volume.
    pub fn format(&self, bytes: &mut [u8], layout: &Layout) -> Result<(), Refusal> {
        match self {
            Tags::Digest => volume::format(bytes, layout),
            Tags::Hmac(key) => volume::format_keyed(bytes, layout, key),
        }
    }

    /// Opens a volume.
    pub fn open(&self, bytes: Vec<u8>, reserved: u64) -> Result<Volume, Refusal> {
        match self {
            Tags::Digest => Volume::open(bytes, reserved),
            Tags::Hmac(key) => Volume::open_keyed(bytes, reserved, key),
        }
    }

    /// Opens a volume and finishes its recovery.
    pub fn recovered(&self, bytes: Vec<u8>, reserved: u64) -> Result<Volume, Refusal> {
        match self {
            Tags::Digest => Volume::recovered(bytes, reserved),
            Tags::Hmac(key) => Volume::recovered_keyed(bytes, reserved, key),
        }
    }

    /// Whether a tag is that of a logical sector with this data.
    pub fn fit(&self, tag: &[u8], sector: u64, data: &Sector) -> bool {
        let message = [&sector.to_le_bytes()[..], data].concat();
        let whole = match self {
            Tags::Digest => sha256(&message),
            Tags::Hmac(key) => hmac_sha256(key, &message),
        };
        let whole = whole.expect("520 bytes are within the limit, and the key is in range");
        whole[..tag.len()] == *tag
    }

    /// A refusal of a volume's call on an image. A tag that does not fit may be the key's fault, and then what is advised for
    /// damage would do harm: so the key comes first.
    pub fn refused(&self, path: &Path, refusal: Refusal) -> Failure {
        let about_tag = matches!(refusal, Refusal::Tag { .. } | Refusal::JournalTag { .. });
        let said = refusal.to_string();
        let Some((met, advice)) = said.split_once(": ").filter(|_| about_tag) else {
            return Failure::refused(path, refusal);
        };
        let of_key = match self {
            Tags::Digest => "if the volume has a key, name its file by --key-file; else",
            Tags::Hmac(_) => "the key may be wrong; if it is the volume's,",
        };
        Failure::refused_as(path, refusal, format!("{met}: {of_key} {advice}"))
    }
}

/// Writes a batch of logical sectors, at most as many as a section takes, and begins to commit it.
pub fn write_batch<'a>(
    volume: &mut Volume,
    batch: impl Iterator<Item = (u64, &'a Sector)>,
) -> Result<(), Refusal> {
    for (sector, bytes) in batch {
        volume.write(sector, bytes)?;
    }
    volume.flush()?;
    Ok(())
}
