//! Why a call was refused (document 01, "Refusal numbers").

/// A refusal and what is returned with it.
#[derive(Clone, Copy, Debug, PartialEq, Eq)]
pub enum Refusal {
    /// Lent bytes have a wrong length, or the state isn't sound.
    LengthOrState,
    /// A parameter, or the key's length, is out of range.
    Parameter,
    /// Format: there is something in the superblock's place.
    SuperblockNotZero,
    /// Open: there is nothing in the superblock's place.
    SuperblockZero,
    /// A fixed byte of the superblock or a range is wrong.
    SuperblockNotValid,
    /// The volume is shorter than its layout.
    VolumeTooShort {
        /// The number of sectors needed.
        needed: u64,
    },
    /// The logical sector asked for is not below the number provided.
    Sector,
    /// The logical sector of a staged entry is not below the number provided.
    StagedSector {
        /// The entry's place in staging.
        entry: u64,
    },
    /// The logical sector of an entry in the journal is not below the number provided.
    JournalSector {
        /// The section.
        section: u64,
        /// The entry's place in the section.
        entry: u64,
    },
    /// A sector's tag doesn't fit.
    Tag {
        /// The logical sector.
        sector: u64,
    },
    /// The tag of an entry in the journal doesn't fit.
    JournalTag {
        /// The section.
        section: u64,
        /// The entry's place in the section.
        entry: u64,
    },
    /// The batch is full.
    BatchFull,
    /// The call can't be made in this phase.
    NotNow,
    /// The commit ids are used up.
    IdsUsedUp,
    /// A whole section stands in the wrong place.
    SectionMisplaced {
        /// The section.
        section: u64,
    },
}

impl Refusal {
    /// Document 01's number for it.
    pub fn number(self) -> u32 {
        match self {
            Refusal::LengthOrState => 1,
            Refusal::Parameter => 2,
            Refusal::SuperblockNotZero | Refusal::SuperblockZero => 3,
            Refusal::SuperblockNotValid => 4,
            Refusal::VolumeTooShort { .. } => 5,
            Refusal::Sector | Refusal::StagedSector { .. } | Refusal::JournalSector { .. } => 6,
            Refusal::Tag { .. } | Refusal::JournalTag { .. } => 7,
            Refusal::BatchFull => 8,
            Refusal::NotNow => 9,
            Refusal::IdsUsedUp => 10,
            Refusal::SectionMisplaced { .. } => 11,
        }
    }

    /// What document 01 says is also returned, in its order.
    pub fn values(self) -> Vec<u64> {
        match self {
            Refusal::VolumeTooShort { needed } => vec![needed],
            Refusal::StagedSector { entry } => vec![entry],
            Refusal::JournalSector { section, entry } => vec![section, entry],
            Refusal::Tag { sector } => vec![sector],
            Refusal::JournalTag { section, entry } => vec![section, entry],
            Refusal::SectionMisplaced { section } => vec![section],
            Refusal::LengthOrState
            | Refusal::Parameter
            | Refusal::SuperblockNotZero
            | Refusal::SuperblockZero
            | Refusal::SuperblockNotValid
            | Refusal::Sector
            | Refusal::BatchFull
            | Refusal::NotNow
            | Refusal::IdsUsedUp => vec![],
        }
    }
}
