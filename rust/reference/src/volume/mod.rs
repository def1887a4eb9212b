//! A tagged volume with a journal, from document 01 with document 02's orders 1 (tags with a key) and 4 (tags of 1 to 32 bytes).
//!
//! A volume, a staging section and a sector are lent as bytes of any length and content; states and parameters may
//! be anything too. Each call tests what it was given in document 01's order and answers with the first rule that is
//! met. After a refusal the state and all lent bytes are as they were.

mod advance;
mod check;
mod flush;
mod format;
mod journal;
mod layout;
pub mod ledger;
mod loan;
mod next_store;
mod open;
mod query;
mod read;
mod recover;
mod refusal;
mod section;
mod state;
mod step;
mod superblock;
mod tag;
mod verify;
mod write;

pub use advance::{advance, Advanced};
pub use check::{check, Checked};
pub use flush::{flush, Flushed};
pub use format::format;
pub use layout::{Geometry, Home, Layout};
pub use loan::{Sector, SECTOR_LENGTH, VOLUME_LIMIT};
pub use next_store::next_store;
pub use open::{open, Opened};
pub use query::{query, Queried};
pub use read::read;
pub use recover::recover;
pub use refusal::Refusal;
pub use state::{Phase, State};
pub use step::{step, Said, Stepped};
pub use superblock::SUPERBLOCK_SECTORS;
pub use tag::{digest_of_sector, TagRule};
pub use verify::verify;
pub use write::write;
