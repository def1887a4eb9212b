//! A tagged volume with a journal.
//!
//! A volume, a staging section and a sector are lent as bytes. Each call tests what it was given, and after a refusal the
//! state and all lent bytes are as they were; only [`advance`] keeps the steps before the refused one, and counts them.
//!
//! [`Volume`] keeps bytes, state and staging together. The functions are the C interface's calls as they are, for a caller that
//! keeps the three itself.
//!
//! A caller that has only a volume asks [`query`] how long staging must be, then calls [`open`]; [`step`] or [`advance`]
//! finish the recovery. While the volume is filling, [`write()`] takes sectors into a batch; [`flush`] begins to commit it,
//! and steps store it, first in the journal, then in its place.
//!
//! Where the volume can be read in place and not stored to, as flash that is mapped for reading, [`next_store`] stands for
//! [`step`]: it tells the step's store, and the volume's owner makes it.
//!
//! [`verify`] tests the tags of many sectors at once: a check of a whole volume by it is cheaper than by [`read`].
//!
//! Without a key a tag is made by SHA-256, which anybody can compute. [`format_keyed`], [`open_keyed`], [`write_keyed`],
//! [`read_keyed`] and [`verify_keyed`] make and test tags by HMAC with SHA-256 under a key of 1 to
//! [`LONGEST_KEY`](crate::LONGEST_KEY) bytes, the same at every call of a volume; the other calls take none. Neither volume nor
//! state keeps the key, or that there is one: a wrong one shows only where a tag is tested and differs, and a write under it is
//! not noticed. [`Volume`] keeps the key that it is opened with, so that no other can be meant later.
//!
//! ```
//! use gaffreel::volume::{self, Layout, SECTOR_LENGTH};
//!
//! # fn main() -> Result<(), gaffreel::Refusal> {
//! let layout = Layout { reserved: 0, log2_run: 4, tag_size: 32, sections: 1, provided: 16 };
//! let mut bytes = vec![0; 120 * SECTOR_LENGTH];
//! volume::format(&mut bytes, &layout)?;
//!
//! let mut staging = vec![0; volume::query(&bytes, 0)?.staging_length];
//! let mut state = volume::open(&bytes, 0, &mut staging)?.state;
//! volume::advance(&mut state, &mut bytes, &mut staging, u64::MAX)?;
//!
//! volume::write(&mut state, &mut staging, 5, &[1; SECTOR_LENGTH])?;
//! volume::flush(&mut state)?;
//! let advanced = volume::advance(&mut state, &mut bytes, &mut staging, u64::MAX)?;
//! assert!(advanced.acknowledged);
//!
//! let mut sector = [0; SECTOR_LENGTH];
//! volume::read(&state, &bytes, &staging, 5, &mut sector)?;
//! assert_eq!(sector, [1; SECTOR_LENGTH]);
//! # Ok(())
//! # }
//! ```

mod held;
mod state;

pub use held::{Sector, Volume};
pub use state::{Layout, Phase, State, LAYOUT_LENGTH, STATE_LENGTH};

use crate::ffi;
use crate::refusal::Refusal;
use state::numbers;
use std::error::Error;
use std::fmt;

/// A sector's length in bytes.
pub const SECTOR_LENGTH: usize = 512;

/// The most sectors of a volume.
pub const MOST_SECTORS: usize = 65_536;

/// An answer's length in bytes.
pub const ANSWER_LENGTH: usize = 40;

/// What a query that is taken gives.
#[derive(Clone, Copy, Debug, PartialEq, Eq)]
pub struct Queried {
    /// The volume's parameters.
    pub layout: Layout,
    /// The length in bytes that staging must have.
    pub staging_length: usize,
}

/// What an open that is taken gives.
#[derive(Clone, Copy, Debug, PartialEq, Eq)]
pub struct Opened {
    /// The state, recovering or filling.
    pub state: State,
    /// How many stores the recovery will make.
    pub stores_to_come: u64,
}

/// What a flush that is taken gives.
#[derive(Clone, Copy, Debug, PartialEq, Eq)]
pub enum Flushed {
    /// The batch was empty, and is acknowledged at once.
    Acknowledged,
    /// The batch is being committed; a step acknowledges it.
    Committing,
}

/// What a step that is taken gives.
#[derive(Clone, Copy, Debug, PartialEq, Eq)]
pub struct Stepped {
    /// The volume's sector that was stored, or that [`next_store`] leaves to be stored; none when filling.
    pub stored: Option<u64>,
    /// What the step says of the volume. Of [`next_store`] it holds once the store is made.
    pub said: Said,
}

/// What a step says of the volume.
#[derive(Clone, Copy, Debug, PartialEq, Eq)]
pub enum Said {
    /// Nothing.
    Nothing,
    /// The batch is acknowledged: once the sector that is named with it is on the medium, it survives a cut.
    Acknowledged,
    /// The volume is filling.
    Filling,
}

/// What so many steps give, if all are taken.
#[derive(Clone, Copy, Debug, PartialEq, Eq)]
pub struct Advanced {
    /// What the last step gives; of no step, that nothing was stored or said.
    pub last: Stepped,
    /// How many steps did something; each made a store.
    pub done: u64,
    /// Whether a step acknowledged the batch.
    pub acknowledged: bool,
}

/// So many steps of which one is refused: the steps before it are kept.
#[derive(Clone, Copy, Debug, PartialEq, Eq)]
pub struct Stopped {
    /// Why the step was refused.
    pub refusal: Refusal,
    /// How many steps before it did something; each made a store.
    pub done: u64,
    /// Whether a step before it acknowledged the batch.
    pub acknowledged: bool,
}

impl From<Stopped> for Refusal {
    fn from(stopped: Stopped) -> Refusal {
        stopped.refusal
    }
}

impl fmt::Display for Stopped {
    fn fmt(&self, f: &mut fmt::Formatter<'_>) -> fmt::Result {
        let plural = if self.done == 1 { "" } else { "s" };
        write!(f, "stopped after {} step{plural}", self.done)?;
        if self.acknowledged {
            f.write_str(", the batch acknowledged")?;
        }
        write!(f, ": {}", self.refusal)
    }
}

// The refusal's text is part of the message, so there is no source that would say it again.
impl Error for Stopped {}

/// Makes a volume whose superblock is still zero: every sector provided is zero and has its tag. The reserved sectors
/// and those behind the last run stay as they are.
///
/// In range are 0 to 64 reserved sectors, a logarithm of 3 to 15, a tag size of 1 to 32 bytes, 1 to 64 sections and 1 to
/// 65,536 sectors provided; in all a volume has at most [`MOST_SECTORS`]. A batch takes 160 writes with tags of up to 8 bytes, 120
/// with up to 16, 96 with up to 24 and 80 with longer ones. A short tag fits other data by chance: one of a single byte once in 256
/// times.
pub fn format(volume: &mut [u8], layout: &Layout) -> Result<(), Refusal> {
    let reply = Reply::of(|answer| {
        ffi::volume_format(
            volume,
            size(layout.reserved),
            size(layout.log2_run),
            size(layout.tag_size),
            size(layout.sections),
            size(layout.provided),
            answer,
        )
    });
    reply.formatted()
}

/// [`format`](fn@format) with a key.
pub fn format_keyed(volume: &mut [u8], layout: &Layout, key: &[u8]) -> Result<(), Refusal> {
    let reply = Reply::of(|answer| {
        ffi::volume_format_keyed(
            volume,
            size(layout.reserved),
            size(layout.log2_run),
            size(layout.tag_size),
            size(layout.sections),
            size(layout.provided),
            key,
            answer,
        )
    });
    reply.formatted()
}

/// The parameters of a volume that was formatted with `reserved` reserved sectors, 0 to 64, and the length that staging
/// must have. The journal is not looked at.
pub fn query(volume: &[u8], reserved: u64) -> Result<Queried, Refusal> {
    let mut layout = [0; LAYOUT_LENGTH];
    let reply = Reply::of(|answer| ffi::volume_query(volume, size(reserved), &mut layout, answer));
    let [staging_length, ..] = reply.done()?;
    Ok(Queried {
        layout: Layout::from_bytes(layout).expect("a query leaves a layout"),
        staging_length: size(staging_length),
    })
}

/// Opens a volume that was formatted with `reserved` reserved sectors, 0 to 64, and makes staging an empty section.
pub fn open(volume: &[u8], reserved: u64, staging: &mut [u8]) -> Result<Opened, Refusal> {
    let mut state = [0; STATE_LENGTH];
    let reply =
        Reply::of(|answer| ffi::volume_open(volume, staging, size(reserved), &mut state, answer));
    reply.opened(state)
}

/// [`open`] with a key.
pub fn open_keyed(
    volume: &[u8],
    reserved: u64,
    staging: &mut [u8],
    key: &[u8],
) -> Result<Opened, Refusal> {
    let mut state = [0; STATE_LENGTH];
    let reply = Reply::of(|answer| {
        ffi::volume_open_keyed(volume, staging, size(reserved), key, &mut state, answer)
    });
    reply.opened(state)
}

/// Adds an entry to the batch in staging, also when the sector is already there. `bytes` is one sector.
pub fn write(
    state: &mut State,
    staging: &mut [u8],
    sector: u64,
    bytes: &[u8],
) -> Result<(), Refusal> {
    let reply = Reply::on(state, |state, answer| {
        ffi::volume_write(state, staging, size(sector), bytes, answer)
    });
    reply.done()?;
    Ok(())
}

/// [`write()`] with a key.
pub fn write_keyed(
    state: &mut State,
    staging: &mut [u8],
    sector: u64,
    bytes: &[u8],
    key: &[u8],
) -> Result<(), Refusal> {
    let reply = Reply::on(state, |state, answer| {
        ffi::volume_write_keyed(state, staging, size(sector), bytes, key, answer)
    });
    reply.done()?;
    Ok(())
}

/// Begins to commit the batch.
pub fn flush(state: &mut State) -> Result<Flushed, Refusal> {
    let [acknowledged, ..] = Reply::on(state, ffi::volume_flush).done()?;
    Ok(match acknowledged {
        0 => Flushed::Committing,
        _ => Flushed::Acknowledged,
    })
}

/// Makes the store that comes next, or none when filling.
pub fn step(state: &mut State, volume: &mut [u8], staging: &mut [u8]) -> Result<Stepped, Refusal> {
    let reply = Reply::on(state, |state, answer| {
        ffi::volume_step(state, volume, staging, answer)
    });
    reply.stepped()
}

/// Makes a step but for its store, which is left to the volume's owner: `content`, one sector, receives what the sector named
/// in [`Stepped::stored`] is to hold. Where none is named, the volume is filling and `content` stays as it was.
///
/// State and staging are those after the step. So the owner makes the store before any other call, and only then passes on
/// what the step says, acknowledged or filling. A store that fails is made again, with the same content. Where it cannot be
/// made, state and staging are thrown away and the volume is opened again: that is a power cut before the step. A sector
/// that stays half written is outside the promise.
///
/// [`Volume::next_store`] keeps the content until the store is made, and lets no other call in before.
pub fn next_store(
    state: &mut State,
    volume: &[u8],
    staging: &mut [u8],
    content: &mut [u8],
) -> Result<Stepped, Refusal> {
    let reply = Reply::on(state, |state, answer| {
        ffi::volume_next_store(state, volume, staging, content, answer)
    });
    reply.stepped()
}

/// Takes so many steps, one after the other. From the first on that does nothing, all give the same: so a number
/// above the stores still to come finishes a recovery, or a commit and its write-back. It names only the last sector
/// stored: for a copy of the medium, to which every sector goes on its own, there are [`step`] and [`next_store`].
///
/// After a refusal state, volume and staging are as the steps before the refused one left them, and [`Stopped`] says how
/// many of them did something and whether one acknowledged the batch.
pub fn advance(
    state: &mut State,
    volume: &mut [u8],
    staging: &mut [u8],
    steps: u64,
) -> Result<Advanced, Stopped> {
    let reply = Reply::on(state, |state, answer| {
        ffi::volume_advance(state, volume, staging, size(steps), answer)
    });
    let [.., done, acknowledged] = reply.numbers;
    let acknowledged = acknowledged != 0;
    match reply.stepped() {
        Ok(last) => Ok(Advanced {
            last,
            done,
            acknowledged,
        }),
        Err(refusal) => Err(Stopped {
            refusal,
            done,
            acknowledged,
        }),
    }
}

/// Copies out the newest data of a sector: the batch's, else the volume's if its tag fits. `out` is one sector.
pub fn read(
    state: &State,
    volume: &[u8],
    staging: &[u8],
    sector: u64,
    out: &mut [u8],
) -> Result<(), Refusal> {
    let state = state.to_bytes();
    let reply =
        Reply::of(|answer| ffi::volume_read(&state, volume, staging, size(sector), out, answer));
    reply.done()?;
    Ok(())
}

/// [`read`] with a key.
pub fn read_keyed(
    state: &State,
    volume: &[u8],
    staging: &[u8],
    sector: u64,
    out: &mut [u8],
    key: &[u8],
) -> Result<(), Refusal> {
    let state = state.to_bytes();
    let reply = Reply::of(|answer| {
        ffi::volume_read_keyed(&state, volume, staging, size(sector), out, key, answer)
    });
    reply.done()?;
    Ok(())
}

/// Tests the tags of `count` sectors from `first` on against the volume's data. The batch is not looked at. Refused with the
/// first sector whose tag does not fit, [`Refusal::Tag`]: a check of a whole volume goes on behind it. Only for a volume that is
/// filling: in other phases data and tag of a sector may be stored only in part.
pub fn verify(state: &State, volume: &[u8], first: u64, count: u64) -> Result<(), Refusal> {
    let state = state.to_bytes();
    let reply =
        Reply::of(|answer| ffi::volume_verify(&state, volume, size(first), size(count), answer));
    reply.done()?;
    Ok(())
}

/// [`verify`] with a key, which is set up once for all these sectors; each [`read_keyed`] sets it up anew.
pub fn verify_keyed(
    state: &State,
    volume: &[u8],
    first: u64,
    count: u64,
    key: &[u8],
) -> Result<(), Refusal> {
    let state = state.to_bytes();
    let reply = Reply::of(|answer| {
        ffi::volume_verify_keyed(&state, volume, size(first), size(count), key, answer)
    });
    reply.done()?;
    Ok(())
}

/// What a step did, as the C interface has it.
const IDLE: u64 = 0;
const STORED: u64 = 1;

/// What a step says, as the C interface has it: a bit each, of which a step says one at most.
const ACKNOWLEDGED: u64 = 1;
const FILLING: u64 = 2;

/// What a call of the C interface says: the number that it answers, and the numbers in the answer's buffer.
struct Reply {
    number: u32,
    numbers: [u64; 5],
}

impl Reply {
    /// Has a call write to an answer's buffer.
    fn of(call: impl FnOnce(&mut [u8]) -> u32) -> Reply {
        let mut answer = [0; ANSWER_LENGTH];
        let number = call(&mut answer);
        Reply {
            number,
            numbers: numbers(&answer),
        }
    }

    /// The same with a call that writes to the state's buffer too.
    fn on(state: &mut State, call: impl FnOnce(&mut [u8], &mut [u8]) -> u32) -> Reply {
        let mut bytes = state.to_bytes();
        let reply = Reply::of(|answer| call(&mut bytes, answer));
        *state = left(bytes);
        reply
    }

    /// The numbers of a call that was carried out.
    fn done(&self) -> Result<[u64; 5], Refusal> {
        match self.number {
            0 => Ok(self.numbers),
            refused => Err(Refusal::of_volume(refused, self.values())),
        }
    }

    /// What a refusal also returned: the first number says how many values follow.
    fn values(&self) -> &[u64] {
        let [count, values @ ..] = &self.numbers;
        &values[..size(*count)]
    }

    /// How a format ended.
    fn formatted(&self) -> Result<(), Refusal> {
        match self.number {
            0 => Ok(()),
            refused => Err(Refusal::of_format(refused, self.values())),
        }
    }

    /// What an open gives that wrote to this state's buffer.
    fn opened(&self, state: [u8; STATE_LENGTH]) -> Result<Opened, Refusal> {
        let [stores_to_come, ..] = self.done()?;
        Ok(Opened {
            state: left(state),
            stores_to_come,
        })
    }

    /// What a step did and says.
    fn stepped(&self) -> Result<Stepped, Refusal> {
        let [did, sector, says, ..] = self.done()?;
        Ok(Stepped {
            stored: match did {
                IDLE => None,
                STORED => Some(sector),
                other => unreachable!("the C interface has no step that did {other}"),
            },
            said: match says {
                0 => Said::Nothing,
                ACKNOWLEDGED => Said::Acknowledged,
                FILLING => Said::Filling,
                other => unreachable!("the C interface has no step that says {other:#b}"),
            },
        })
    }
}

/// The state that a call left.
fn left(bytes: [u8; STATE_LENGTH]) -> State {
    State::from_bytes(bytes).expect("a call leaves a state")
}

/// A number as the C interface takes it. The library is for x86-64, so nothing is cut.
fn size(number: u64) -> usize {
    number as usize
}
