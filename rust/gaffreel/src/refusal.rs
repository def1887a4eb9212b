//! Why a call was refused.

use std::error::Error;
use std::fmt;

/// A refusal.
#[derive(Clone, Copy, Debug, PartialEq, Eq)]
pub enum Refusal {
    /// Digest, HMAC and tree: a buffer has a wrong length, or the limit of a message is passed: 2^61 - 1 bytes, and 64 fewer
    /// under a key.
    LengthOrLimit,
    /// Volume: a buffer has a wrong length, or the state is not sound.
    LengthOrState,
    /// A number, or the length of the salt or of a key, is out of range.
    OutOfRange,
    /// Format: there is something in the superblock's place.
    SuperblockNotZero,
    /// Query and open: there is nothing in the superblock's place.
    SuperblockZero,
    /// A fixed byte of the superblock, or a range, is wrong.
    SuperblockNotValid,
    /// The volume is shorter than its layout.
    VolumeTooShort {
        /// The number of sectors needed.
        needed: u64,
    },
    /// The logical sector asked for, or one of those, is not below the number provided.
    Sector,
    /// The logical sector of a staged entry is not below the number provided.
    StagedSector {
        /// The entry's place in staging.
        entry: u64,
    },
    /// The logical sector of an entry in the journal is not below the number provided.
    JournalSector {
        /// The section.
        section: u64,
        /// The entry's place in the section.
        entry: u64,
    },
    /// A sector's tag does not fit.
    Tag {
        /// The logical sector.
        sector: u64,
    },
    /// The tag of an entry in the journal does not fit.
    JournalTag {
        /// The section.
        section: u64,
        /// The entry's place in the section.
        entry: u64,
    },
    /// The batch is full.
    BatchFull,
    /// The call cannot be made in this phase, or while a store that is left to the volume's owner is still to be made.
    NotNow,
    /// The commit ids are used up.
    IdsUsedUp,
    /// A whole section of the journal stands in the wrong place.
    SectionMisplaced {
        /// The section.
        section: u64,
    },
    /// The tree does not verify.
    Mismatch {
        /// The highest failing level: -1 for the data block, else the level of the hash block.
        level: i32,
    },
}

impl Refusal {
    /// The refusal's number.
    pub fn number(self) -> u32 {
        match self {
            Refusal::LengthOrLimit | Refusal::LengthOrState => 1,
            Refusal::OutOfRange => 2,
            Refusal::SuperblockNotZero | Refusal::SuperblockZero => 3,
            Refusal::SuperblockNotValid => 4,
            Refusal::VolumeTooShort { .. } => 5,
            Refusal::Sector | Refusal::StagedSector { .. } | Refusal::JournalSector { .. } => 6,
            Refusal::Tag { .. } | Refusal::JournalTag { .. } => 7,
            Refusal::BatchFull => 8,
            Refusal::NotNow => 9,
            Refusal::IdsUsedUp => 10,
            Refusal::SectionMisplaced { .. } => 11,
            Refusal::Mismatch { .. } => 12,
        }
    }

    /// What is also returned: a level may be below 0, and the other values may be any of 64 bits.
    pub fn values(self) -> Vec<i128> {
        match self {
            Refusal::VolumeTooShort { needed } => vec![needed.into()],
            Refusal::StagedSector { entry } => vec![entry.into()],
            Refusal::JournalSector { section, entry } | Refusal::JournalTag { section, entry } => {
                vec![section.into(), entry.into()]
            }
            Refusal::Tag { sector } => vec![sector.into()],
            Refusal::SectionMisplaced { section } => vec![section.into()],
            Refusal::Mismatch { level } => vec![level.into()],
            Refusal::LengthOrLimit
            | Refusal::LengthOrState
            | Refusal::OutOfRange
            | Refusal::SuperblockNotZero
            | Refusal::SuperblockZero
            | Refusal::SuperblockNotValid
            | Refusal::Sector
            | Refusal::BatchFull
            | Refusal::NotNow
            | Refusal::IdsUsedUp => Vec::new(),
        }
    }

    /// What an answer of digest, HMAC and tree says: 0 is done, anything else the number of a refusal.
    pub(crate) fn check(answer: u32) -> Result<(), Refusal> {
        match answer {
            0 => Ok(()),
            1 => Err(Refusal::LengthOrLimit),
            2 => Err(Refusal::OutOfRange),
            other => unreachable!("the C interface has no answer {other} without a value"),
        }
    }

    /// The same, with the buffer that received the failing level, if there is one.
    pub(crate) fn check_level(answer: u32, level: [u8; 4]) -> Result<(), Refusal> {
        match answer {
            12 => Err(Refusal::Mismatch {
                level: i32::from_le_bytes(level),
            }),
            other => Refusal::check(other),
        }
    }

    /// The refusal of a volume's call, from its number and what it also returned.
    pub(crate) fn of_volume(number: u32, values: &[u64]) -> Refusal {
        match (number, values) {
            (1, []) => Refusal::LengthOrState,
            (2, []) => Refusal::OutOfRange,
            (3, []) => Refusal::SuperblockZero,
            (4, []) => Refusal::SuperblockNotValid,
            (5, &[needed]) => Refusal::VolumeTooShort { needed },
            (6, []) => Refusal::Sector,
            (6, &[entry]) => Refusal::StagedSector { entry },
            (6, &[section, entry]) => Refusal::JournalSector { section, entry },
            (7, &[sector]) => Refusal::Tag { sector },
            (7, &[section, entry]) => Refusal::JournalTag { section, entry },
            (8, []) => Refusal::BatchFull,
            (9, []) => Refusal::NotNow,
            (10, []) => Refusal::IdsUsedUp,
            (11, &[section]) => Refusal::SectionMisplaced { section },
            _ => unreachable!("the C interface has no answer {number} with {values:?}"),
        }
    }

    /// The same for format, where 3 says that the superblock is not zero.
    pub(crate) fn of_format(number: u32, values: &[u64]) -> Refusal {
        match number {
            3 => Refusal::SuperblockNotZero,
            _ => Refusal::of_volume(number, values),
        }
    }
}

impl fmt::Display for Refusal {
    fn fmt(&self, f: &mut fmt::Formatter<'_>) -> fmt::Result {
        match self {
            Refusal::LengthOrLimit => f.write_str(
                "a buffer has a wrong length, or a message is longer than 2^61 - 1 bytes, 64 fewer under a key: \
                 lend buffers of the lengths that the call asks for",
            ),
            Refusal::LengthOrState => f.write_str(
                "a buffer has a wrong length, or the state is not sound: lend a volume of whole sectors, \
                 staging as long as the query says and 512 bytes for a sector, \
                 with the state that the last call on this volume left",
            ),
            Refusal::OutOfRange => f.write_str(
                "a number, or the length of the salt or of a key, is out of range: \
                 keep to the limits that the call names",
            ),
            Refusal::SuperblockNotZero => f.write_str(
                "there is something in the superblock's place: \
                 check the number of reserved sectors, or make the superblock zero if nothing is to be kept",
            ),
            Refusal::SuperblockZero => f.write_str(
                "the superblock is zero: \
                 check the number of reserved sectors, or format the volume first",
            ),
            Refusal::SuperblockNotValid => f.write_str(
                "the superblock is not valid: \
                 check the number of reserved sectors, or restore the whole volume from a good copy",
            ),
            Refusal::VolumeTooShort { needed } => write!(
                f,
                "the volume is shorter than its layout: it must have at least {needed} sectors"
            ),
            Refusal::Sector => f.write_str(
                "the volume has no such sector: name one below the number that it provides",
            ),
            Refusal::StagedSector { entry } => write!(
                f,
                "staging's entry {entry} names a sector that the volume does not provide: \
                 lend staging as the last call left it, or open the volume again"
            ),
            Refusal::JournalSector { section, entry } => write!(
                f,
                "entry {entry} of the journal's section {section} names a sector that the volume does not provide: \
                 restore the whole volume, not its journal alone, from a good copy"
            ),
            Refusal::Tag { sector } => write!(
                f,
                "the tag of sector {sector} does not fit its data: \
                 write the sector again from a good copy"
            ),
            Refusal::JournalTag { section, entry } => write!(
                f,
                "the tag of entry {entry} of the journal's section {section} does not fit its data: \
                 restore the whole volume, not its journal alone, from a good copy"
            ),
            Refusal::BatchFull => f.write_str(
                "the batch is full: flush it and step until the volume is filling",
            ),
            Refusal::NotNow => f.write_str(
                "the call has to wait: make the stores that are still to come, until the volume is filling",
            ),
            Refusal::IdsUsedUp => f.write_str(
                "the commit ids are used up: copy the data to a volume that is formatted anew",
            ),
            Refusal::SectionMisplaced { section } => write!(
                f,
                "the journal's section {section} belongs in another place: \
                 restore the whole volume, not its journal alone, from a good copy"
            ),
            Refusal::Mismatch { level: -1 } => f.write_str(
                "the data block is not the one that the tree has at this index: \
                 check the index, or restore the block from a good copy",
            ),
            Refusal::Mismatch { level } => write!(
                f,
                "the hash block of level {level} is not the one that stands above it: \
                 check root digest and salt, or restore the tree from a good copy"
            ),
        }
    }
}

impl Error for Refusal {}
