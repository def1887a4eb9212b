//! An open volume that keeps its state and staging by itself.

use super::{Advanced, Flushed, Layout, Said, State, Stepped, Stopped, SECTOR_LENGTH};
use crate::refusal::Refusal;
use std::fmt;

/// A sector's bytes.
pub type Sector = [u8; SECTOR_LENGTH];

/// An open volume: its bytes, with the state and the staging section that belong to them, so that a caller cannot mix those of
/// two volumes up. The bytes may be owned (`Vec<u8>`) or lent (`&mut [u8]`); a caller that lends them has them back after a
/// refused opening too. Bytes that are only read in place are worked by [`next_store`](Volume::next_store).
///
/// ```
/// use gaffreel::volume::{self, Layout, Volume, SECTOR_LENGTH};
///
/// # fn main() -> Result<(), gaffreel::Refusal> {
/// let layout = Layout { reserved: 0, log2_run: 4, tag_size: 32, sections: 1, provided: 16 };
/// let mut bytes = vec![0; 120 * SECTOR_LENGTH];
/// volume::format(&mut bytes, &layout)?;
///
/// let mut stock = Volume::recovered(bytes, 0)?;
/// stock.write(5, &[1; SECTOR_LENGTH])?;
/// stock.flush()?;
/// // The power fails one store before the batch is acknowledged: what is on the volume is still the old sector.
/// stock.advance(87)?;
/// let stock = Volume::recovered(stock.into_bytes(), 0)?;
/// assert_eq!(stock.read(5)?, [0; SECTOR_LENGTH]);
/// # Ok(())
/// # }
/// ```
///
/// A volume with a key is given it once, where it is opened; the calls behind take no other.
///
/// ```
/// use gaffreel::volume::{self, Layout, Volume, SECTOR_LENGTH};
/// use gaffreel::Refusal;
///
/// # fn main() -> Result<(), Refusal> {
/// # let layout = Layout { reserved: 0, log2_run: 4, tag_size: 32, sections: 1, provided: 16 };
/// let mut bytes = vec![0; 120 * SECTOR_LENGTH];
/// volume::format_keyed(&mut bytes, &layout, b"of the cabinet")?;
///
/// let mut stock = Volume::recovered_keyed(bytes, 0, b"of the cabinet")?;
/// stock.write(5, &[1; SECTOR_LENGTH])?;
/// stock.flush()?;
/// stock.advance(u64::MAX)?;
/// assert_eq!(stock.read(5)?, [1; SECTOR_LENGTH]);
///
/// // Without the key, the batch in the journal is refused.
/// let (section, entry) = (0, 0);
/// let opened = Volume::open(stock.into_bytes(), 0);
/// assert_eq!(opened.err(), Some(Refusal::JournalTag { section, entry }));
/// # Ok(())
/// # }
/// ```
#[derive(Clone, Debug)]
pub struct Volume<B> {
    bytes: B,
    staging: Vec<u8>,
    state: State,
    stores_to_come: u64,
    due: Option<Due>,
    tags: Tags,
}

/// What makes and tests the volume's tags, settled by open for all calls. A key that came with each call could be another, or be left
/// out: a write would not notice, and its sectors would be refused under the right key afterwards.
#[derive(Clone)]
enum Tags {
    Digest,
    Hmac(Vec<u8>),
}

/// A key is a secret: not even its length is shown.
impl fmt::Debug for Tags {
    fn fmt(&self, f: &mut fmt::Formatter<'_>) -> fmt::Result {
        f.write_str(match self {
            Tags::Digest => "Digest",
            Tags::Hmac(_) => "Hmac(..)",
        })
    }
}

/// A store that is left to the bytes' owner and not made yet. State and staging are those after it.
#[derive(Clone, Debug)]
struct Due {
    stepped: Stepped,
    content: Sector,
}

impl<B: AsRef<[u8]>> Volume<B> {
    /// Opens a volume that was formatted with `reserved` reserved sectors. Nothing is stored on it.
    pub fn open(bytes: B, reserved: u64) -> Result<Volume<B>, Refusal> {
        Volume::open_by(bytes, reserved, Tags::Digest)
    }

    /// The same with a key of 1 to [`LONGEST_KEY`](crate::LONGEST_KEY) bytes, the one that the volume was formatted with. It is
    /// kept in memory, for each write, read and verify, until the volume is dropped, and is not wiped then. Where there is
    /// nothing to replay any key is taken: a read of a sector that is known to be good tells the right one.
    pub fn open_keyed(bytes: B, reserved: u64, key: &[u8]) -> Result<Volume<B>, Refusal> {
        Volume::open_by(bytes, reserved, Tags::Hmac(key.to_vec()))
    }

    fn open_by(bytes: B, reserved: u64, tags: Tags) -> Result<Volume<B>, Refusal> {
        let volume = bytes.as_ref();
        let mut staging = vec![0; staging_length(volume, reserved)];
        let opened = match &tags {
            Tags::Digest => super::open(volume, reserved, &mut staging)?,
            Tags::Hmac(key) => super::open_keyed(volume, reserved, &mut staging, key)?,
        };
        Ok(Volume {
            bytes,
            staging,
            state: opened.state,
            stores_to_come: opened.stores_to_come,
            due: None,
            tags,
        })
    }

    /// The volume's parameters.
    pub fn layout(&self) -> &Layout {
        &self.state.layout
    }

    /// The state that the last call left.
    pub fn state(&self) -> &State {
        &self.state
    }

    /// How many stores open said the recovery would make.
    pub fn stores_to_come(&self) -> u64 {
        self.stores_to_come
    }

    /// The bytes as they are: what a power cut leaves.
    pub fn bytes(&self) -> &[u8] {
        self.bytes.as_ref()
    }

    /// The bytes' owner, for it to make a store that [`next_store`](Volume::next_store) tells. Any other change of the bytes
    /// is damage to the volume.
    pub fn bytes_mut(&mut self) -> &mut B {
        &mut self.bytes
    }

    /// The bytes handed back; state and staging are lost, as in a power cut.
    pub fn into_bytes(self) -> B {
        self.bytes
    }

    /// Adds a sector to the batch: [`write()`](super::write()), with the key that the volume was opened with, if there is one.
    pub fn write(&mut self, sector: u64, bytes: &Sector) -> Result<(), Refusal> {
        self.nothing_due()?;
        let (state, staging) = (&mut self.state, &mut self.staging);
        match &self.tags {
            Tags::Digest => super::write(state, staging, sector, bytes),
            Tags::Hmac(key) => super::write_keyed(state, staging, sector, bytes, key),
        }
    }

    /// Begins to commit the batch: [`flush`](super::flush).
    pub fn flush(&mut self) -> Result<Flushed, Refusal> {
        self.nothing_due()?;
        super::flush(&mut self.state)
    }

    /// The newest data of a sector: [`read`](super::read), with the key that the volume was opened with, if there is one.
    pub fn read(&self, sector: u64) -> Result<Sector, Refusal> {
        self.nothing_due()?;
        let mut out = [0; SECTOR_LENGTH];
        let (state, bytes, staging) = (&self.state, self.bytes(), &self.staging);
        match &self.tags {
            Tags::Digest => super::read(state, bytes, staging, sector, &mut out)?,
            Tags::Hmac(key) => super::read_keyed(state, bytes, staging, sector, &mut out, key)?,
        }
        Ok(out)
    }

    /// Tests the tags of `count` sectors from `first` on: [`verify`](super::verify), with the key that the volume was opened
    /// with, if there is one.
    pub fn verify(&self, first: u64, count: u64) -> Result<(), Refusal> {
        self.nothing_due()?;
        let (state, bytes) = (&self.state, self.bytes());
        match &self.tags {
            Tags::Digest => super::verify(state, bytes, first, count),
            Tags::Hmac(key) => super::verify_keyed(state, bytes, first, count, key),
        }
    }

    /// The store that comes next, for bytes that can be read in place and not stored to: [`next_store`](super::next_store).
    /// The bytes' owner makes it, and says so by [`store_made`](Volume::store_made). Until then this call tells the same store
    /// again, so that one that failed can be made again, and others are refused with [`Refusal::NotNow`]. A store that cannot
    /// be made is given up by [`into_bytes`](Volume::into_bytes) and [`open`](Volume::open): a power cut before the step.
    ///
    /// ```
    /// use gaffreel::volume::{self, Layout, Said, Sector, Volume, SECTOR_LENGTH};
    ///
    /// /// Flash that is mapped for reading. A command stores a sector, and may fail.
    /// struct Flash {
    ///     mapped: Vec<u8>,
    ///     commands: u32,
    /// }
    ///
    /// impl AsRef<[u8]> for Flash {
    ///     fn as_ref(&self) -> &[u8] {
    ///         &self.mapped
    ///     }
    /// }
    ///
    /// impl Flash {
    ///     /// Whether the store was made.
    ///     fn store(&mut self, sector: u64, content: &Sector) -> bool {
    ///         self.commands += 1;
    ///         let made = self.commands % 7 != 0;
    ///         if made {
    ///             let place = sector as usize * SECTOR_LENGTH;
    ///             self.mapped[place..][..SECTOR_LENGTH].copy_from_slice(content);
    ///         }
    ///         made
    ///     }
    /// }
    ///
    /// # fn main() -> Result<(), gaffreel::Refusal> {
    /// # let layout = Layout { reserved: 0, log2_run: 4, tag_size: 32, sections: 1, provided: 16 };
    /// # let mut mapped = vec![0; 120 * SECTOR_LENGTH];
    /// # volume::format(&mut mapped, &layout)?;
    /// let mut stock = Volume::open(Flash { mapped, commands: 0 }, 0)?;
    /// stock.write(5, &[1; SECTOR_LENGTH])?;
    /// stock.flush()?;
    ///
    /// let mut acknowledged = false;
    /// let mut content = [0; SECTOR_LENGTH];
    /// while let Some(sector) = stock.next_store(&mut content)?.stored {
    ///     if stock.bytes_mut().store(sector, &content) {
    ///         acknowledged |= stock.store_made() == Said::Acknowledged;
    ///     }
    /// }
    /// assert!(acknowledged);
    /// assert_eq!(stock.read(5)?, [1; SECTOR_LENGTH]);
    /// # Ok(())
    /// # }
    /// ```
    pub fn next_store(&mut self, content: &mut Sector) -> Result<Stepped, Refusal> {
        if let Some(due) = &self.due {
            *content = due.content;
            return Ok(due.stepped);
        }
        let bytes = self.bytes.as_ref();
        let stepped = super::next_store(&mut self.state, bytes, &mut self.staging, content)?;
        self.due = stepped.stored.map(|_| Due {
            stepped,
            content: *content,
        });
        Ok(stepped)
    }

    /// Takes note that the store which [`next_store`](Volume::next_store) told is made. Gives what its step says, which holds
    /// from now on; nothing where there was no store to be made.
    pub fn store_made(&mut self) -> Said {
        match self.due.take() {
            Some(due) => due.stepped.said,
            None => Said::Nothing,
        }
    }

    /// Refuses a call while there is a store to be made: it would be given bytes from before the step with the state after it.
    fn nothing_due(&self) -> Result<(), Refusal> {
        match self.due {
            Some(_) => Err(Refusal::NotNow),
            None => Ok(()),
        }
    }
}

impl<B: AsRef<[u8]> + AsMut<[u8]>> Volume<B> {
    /// Opens a volume and finishes its recovery.
    pub fn recovered(bytes: B, reserved: u64) -> Result<Volume<B>, Refusal> {
        Volume::open(bytes, reserved)?.recover()
    }

    /// The same with a key: [`open_keyed`](Volume::open_keyed).
    pub fn recovered_keyed(bytes: B, reserved: u64, key: &[u8]) -> Result<Volume<B>, Refusal> {
        Volume::open_keyed(bytes, reserved, key)?.recover()
    }

    fn recover(mut self) -> Result<Volume<B>, Refusal> {
        self.advance(u64::MAX)?;
        Ok(self)
    }

    /// Makes the store that comes next: [`step`](super::step).
    pub fn step(&mut self) -> Result<Stepped, Refusal> {
        self.nothing_due()?;
        super::step(&mut self.state, self.bytes.as_mut(), &mut self.staging)
    }

    /// Makes so many steps, or all that still do something: [`advance`](super::advance).
    pub fn advance(&mut self, steps: u64) -> Result<Advanced, Stopped> {
        self.nothing_due().map_err(|refusal| Stopped {
            refusal,
            done: 0,
            acknowledged: false,
        })?;
        super::advance(
            &mut self.state,
            self.bytes.as_mut(),
            &mut self.staging,
            steps,
        )
    }
}

/// The length that staging must have; none where a query is refused, as open then is for the same reason or an earlier one.
fn staging_length(volume: &[u8], reserved: u64) -> usize {
    super::query(volume, reserved).map_or(0, |queried| queried.staging_length)
}
