//! The ledger of demand 3 (document 01): what a volume must hold, told from the calls alone.

use super::{Layout, SECTOR_LENGTH};

/// A cut or a call.
#[derive(Clone, Debug, PartialEq, Eq)]
pub enum Event {
    /// State and staging are lost.
    Cut,
    /// An open.
    Open,
    /// A write.
    Write {
        /// The logical sector.
        sector: u64,
        /// The bytes lent; 512 if it was taken.
        bytes: Vec<u8>,
    },
    /// A flush.
    Flush,
    /// A step.
    Step,
    /// A read.
    Read,
}

/// An event, and whether the call was refused. A cut never is.
#[derive(Clone, Debug, PartialEq, Eq)]
pub struct Record {
    /// What came.
    pub event: Event,
    /// Whether it was refused.
    pub refused: bool,
}

/// What is known after a list of records.
#[derive(Clone, Debug, PartialEq, Eq)]
pub struct Ledger {
    /// What each sector below the number provided must hold.
    pub contents: Vec<Vec<u8>>,
    /// Taken writes that were not entered in the contents.
    pub batch: Vec<(u64, Vec<u8>)>,
    /// How many batches were entered in the contents.
    pub entered: u64,
    /// The taken steps since each taken flush of a batch that wasn't empty, if its batch is still to be entered.
    steps: Vec<u64>,
    /// The length of a section, M.
    section_sectors: u64,
}

impl Ledger {
    /// The ledger of a volume that was just formatted; none if its layout is not in range.
    pub fn new(layout: &Layout) -> Option<Ledger> {
        let geometry = layout.geometry()?;
        Some(Ledger {
            contents: vec![vec![0; SECTOR_LENGTH]; geometry.provided],
            batch: vec![],
            entered: 0,
            steps: vec![],
            section_sectors: geometry.section_sectors as u64,
        })
    }

    /// The ledger after a list of records.
    pub fn of(layout: &Layout, transcript: &[Record]) -> Option<Ledger> {
        let mut ledger = Ledger::new(layout)?;
        for record in transcript {
            ledger.add(record);
        }
        Some(ledger)
    }

    /// Takes one more record.
    pub fn add(&mut self, record: &Record) {
        if record.refused {
            return;
        }
        match &record.event {
            Event::Cut => {
                self.batch.clear();
                self.steps.clear();
            }
            Event::Write { sector, bytes } => self.batch.push((*sector, bytes.clone())),
            Event::Flush if !self.batch.is_empty() => self.steps.push(0),
            Event::Step => self.step(),
            Event::Flush | Event::Open | Event::Read => {}
        }
    }

    /// What a read of a sector must answer: the last bytes for it in the batch, else its content.
    pub fn newest(&self, sector: u64) -> Option<&Vec<u8>> {
        let staged = self.batch.iter().rev().find(|(other, _)| *other == sector);
        match staged {
            Some((_, bytes)) => Some(bytes),
            None => self.contents.get(usize::try_from(sector).ok()?),
        }
    }

    /// Counts a step, and enters the batch if it is the M-th after a flush.
    fn step(&mut self) {
        for steps in &mut self.steps {
            *steps += 1;
        }
        let flushes = self.steps.len();
        self.steps.retain(|steps| *steps < self.section_sectors);
        if self.steps.len() < flushes {
            for (sector, bytes) in self.batch.drain(..) {
                let place = usize::try_from(sector).unwrap_or(usize::MAX);
                if let Some(content) = self.contents.get_mut(place) {
                    *content = bytes;
                }
            }
            self.entered += 1;
        }
    }
}
