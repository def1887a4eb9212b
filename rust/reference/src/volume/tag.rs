//! Tags of sectors (document 01, "Digest"; document 02, order 1).

use super::{Refusal, Sector, SECTOR_LENGTH};
use crate::hmac::Kept;
use crate::sha256::{digest, DIGEST_LENGTH};

const NUMBER_LENGTH: usize = 8;

/// What a tag is made by. A volume stores neither the rule nor the key.
#[derive(Clone, Copy)]
pub enum TagRule<'a> {
    /// SHA-256: the calls without a key.
    Digest,
    /// HMAC with SHA-256 under this key: the calls with one.
    Hmac(&'a [u8]),
}

/// A rule made ready for many sectors.
#[allow(clippy::large_enum_variant)] // a call has one of it
pub(super) enum Tags {
    Digest,
    Hmac(Kept),
}

impl TagRule<'_> {
    /// The rule made ready; refused with 2 where the key is empty or too long.
    pub(super) fn ready(self) -> Result<Tags, Refusal> {
        match self {
            TagRule::Digest => Ok(Tags::Digest),
            TagRule::Hmac(key) => match Kept::new(key) {
                Ok(kept) => Ok(Tags::Hmac(kept)),
                Err(_) => Err(Refusal::Parameter),
            },
        }
    }

    /// The 32 bytes of which the first T are a sector's tag; refused with 2 where the key is empty or too long.
    pub fn of_sector(self, sector: u64, data: &Sector) -> Result<[u8; DIGEST_LENGTH], Refusal> {
        Ok(self.ready()?.of_sector(sector, data))
    }
}

impl Tags {
    /// The 32 bytes of which the first T are a sector's tag.
    pub fn of_sector(&self, sector: u64, data: &Sector) -> [u8; DIGEST_LENGTH] {
        match self {
            Tags::Digest => digest_of_sector(sector, data),
            Tags::Hmac(kept) => {
                let mac = kept.mac(&message(sector, data));
                mac.expect("520 bytes are within the limit")
            }
        }
    }

    /// Whether a tag is the one of a logical sector with this data.
    pub fn fit(&self, tag: &[u8], sector: u64, data: &Sector) -> bool {
        self.of_sector(sector, data)[..tag.len()] == *tag
    }
}

/// The digest of a logical sector's number, 8 bytes, and its data. Without a key its first T bytes are the sector's tag.
pub fn digest_of_sector(sector: u64, data: &Sector) -> [u8; DIGEST_LENGTH] {
    digest(&message(sector, data)).expect("520 bytes are within the limit")
}

/// What both rules are taken over: the number of a logical sector, 8 bytes, and its data.
fn message(sector: u64, data: &Sector) -> [u8; NUMBER_LENGTH + SECTOR_LENGTH] {
    let mut message = [0; NUMBER_LENGTH + SECTOR_LENGTH];
    message[..NUMBER_LENGTH].copy_from_slice(&sector.to_le_bytes());
    message[NUMBER_LENGTH..].copy_from_slice(data);
    message
}
