//! A volume's parameters and state, and the bytes that the C interface has for them: numbers of 8 bytes, little-endian.

/// A layout's length in bytes.
pub const LAYOUT_LENGTH: usize = 64;

/// A state's length in bytes.
pub const STATE_LENGTH: usize = 104;

/// A volume's parameters. Any numbers may stand in it; [`format`](super::format) names their ranges.
#[derive(Clone, Copy, Debug, PartialEq, Eq)]
pub struct Layout {
    /// Reserved sectors before the superblock.
    pub reserved: u64,
    /// The base-2 logarithm of the number of data sectors in a run.
    pub log2_run: u64,
    /// A tag's length in bytes.
    pub tag_size: u64,
    /// Sections of the journal.
    pub sections: u64,
    /// Data sectors that the volume provides.
    pub provided: u64,
}

/// What an open volume is about.
#[derive(Clone, Copy, Debug, PartialEq, Eq)]
pub enum Phase {
    /// Writes are taken into the batch.
    Filling,
    /// The batch is stored in the journal.
    Committing {
        /// The sector of the section that comes next.
        sector: u64,
    },
    /// The batch is stored in the runs.
    WritingBack {
        /// The entry that comes next.
        entry: u64,
        /// Its store that comes next: 0 for its data, 1 for its tag, 2 for what of the tag lies in the next sector.
        store: u64,
    },
    /// The journal's entries are stored in the runs.
    Recovering {
        /// The store that comes next, counted from the first entry's on: an entry has two, and three where its tag lies across two
        /// sectors.
        store: u64,
    },
}

/// The state of an open volume. Any values may stand in it: a call refuses a state that is not sound.
#[derive(Clone, Copy, Debug, PartialEq, Eq)]
pub struct State {
    /// The volume's parameters.
    pub layout: Layout,
    /// The phase.
    pub phase: Phase,
    /// The number of entries of the batch in staging.
    pub count: u64,
    /// The next commit id to be given.
    pub id: u64,
}

impl Layout {
    /// The layout that bytes hold, if they hold one: the three numbers that have no meaning yet are 0.
    pub fn from_bytes(bytes: [u8; LAYOUT_LENGTH]) -> Option<Layout> {
        Layout::from_numbers(numbers(&bytes))
    }

    /// The layout's bytes: the numbers in the order of the fields, then three that have no meaning yet, 0.
    pub fn to_bytes(&self) -> [u8; LAYOUT_LENGTH] {
        bytes(&self.to_numbers())
    }

    fn from_numbers(numbers: [u64; 8]) -> Option<Layout> {
        let [reserved, log2_run, tag_size, sections, provided, 0, 0, 0] = numbers else {
            return None;
        };
        Some(Layout {
            reserved,
            log2_run,
            tag_size,
            sections,
            provided,
        })
    }

    fn to_numbers(self) -> [u64; 8] {
        [
            self.reserved,
            self.log2_run,
            self.tag_size,
            self.sections,
            self.provided,
            0,
            0,
            0,
        ]
    }
}

impl Phase {
    /// The phase of a kind and the two numbers of its place, if there is one: numbers that a place lacks are 0.
    fn from_numbers(numbers: [u64; 3]) -> Option<Phase> {
        match numbers {
            [0, 0, 0] => Some(Phase::Filling),
            [1, sector, 0] => Some(Phase::Committing { sector }),
            [2, entry, store] => Some(Phase::WritingBack { entry, store }),
            [3, store, 0] => Some(Phase::Recovering { store }),
            _ => None,
        }
    }

    fn to_numbers(self) -> [u64; 3] {
        match self {
            Phase::Filling => [0, 0, 0],
            Phase::Committing { sector } => [1, sector, 0],
            Phase::WritingBack { entry, store } => [2, entry, store],
            Phase::Recovering { store } => [3, store, 0],
        }
    }
}

impl State {
    /// The state that bytes hold, if they hold one: the layout is one, the phase is 0 to 3, and its place has no number
    /// that it lacks.
    pub fn from_bytes(bytes: [u8; STATE_LENGTH]) -> Option<State> {
        let [phase, first, second, count, id] = numbers(&bytes[LAYOUT_LENGTH..]);
        Some(State {
            layout: Layout::from_numbers(numbers(&bytes))?,
            phase: Phase::from_numbers([phase, first, second])?,
            count,
            id,
        })
    }

    /// The state's bytes: the layout's; the phase, 0 to 3 in the order of [`Phase`]; the first and the second number of its
    /// place, 0 where it has none; count; id.
    pub fn to_bytes(&self) -> [u8; STATE_LENGTH] {
        let [phase, first, second] = self.phase.to_numbers();
        let mut numbers = [0; STATE_LENGTH / 8];
        let (layout, behind) = numbers.split_at_mut(LAYOUT_LENGTH / 8);
        layout.copy_from_slice(&self.layout.to_numbers());
        behind.copy_from_slice(&[phase, first, second, self.count, self.id]);
        bytes(&numbers)
    }
}

/// The numbers in a buffer that has at least so many.
pub(super) fn numbers<const COUNT: usize>(bytes: &[u8]) -> [u64; COUNT] {
    let (numbers, _) = bytes.as_chunks();
    std::array::from_fn(|i| u64::from_le_bytes(numbers[i]))
}

/// The bytes of numbers that fill them.
fn bytes<const LENGTH: usize>(numbers: &[u64]) -> [u8; LENGTH] {
    let mut bytes = [0; LENGTH];
    for (part, number) in bytes.chunks_exact_mut(8).zip(numbers) {
        part.copy_from_slice(&number.to_le_bytes());
    }
    bytes
}
