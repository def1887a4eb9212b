//! `gaffreel drill`: a random history on a copy of a volume, cut after every store (document 01, "The ledger of demand 3").

mod contents;
mod cuts;
mod history;

use super::{counted, reserved, tags, Command, KEY_FILE, RESERVED};
use crate::arguments::{Arguments, Options};
use crate::failure::{Failure, Outcome};
use crate::files;
use crate::layout::{sizes, Sizes};
use crate::progress::Progress;
use crate::volume::{write_batch, Tags, Volume};
use contents::Contents;
use cuts::{Cuts, Lost};
use gaffreel::Refusal;
use history::Batch;
use std::ffi::OsString;
use std::io::{self, Write};

const SEED: &str = "--seed";
const BATCHES: &str = "--batches";
const WRITES: &str = "--writes";
const RECOVERY_CUTS: &str = "--recovery-cuts";

/// The command.
pub const COMMAND: Command = Command {
    name: "drill",
    summary: "cut the power after every store of a random history, on a copy",
    help: "\
Usage: gaffreel drill IMAGE [OPTION]...
On copies in memory, recovers the image and plays batches of random writes. After every store it
cuts the power, opens and recovers what is left, reads every sector and compares it with what must
be there. It cuts each such recovery after every store too, and recovers again. A sector that is bad
at the start must stay refused until it is written. The image is not changed.

  --seed N           another history for each number (default 1)
  --batches B        batches: 1 to 1000 (default 8)
  --writes W         most writes of a batch: 1 to 160 (default 16); a batch takes no more than
                     a section of the journal
  --recovery-cuts N  most cuts of each recovery, spread evenly (default after every store)
  --reserved R       sectors before the superblock: 0 to 64 (default 0)
  --key-file FILE    make and test tags with the key in FILE: all its bytes, 1 to 256, a newline at
                     its end too

Exit status: 0 every cut survived; 1 a cut was not survived; 2 refused; 3 usage, or the image
cannot be read.
",
    options: Options {
        valued: &[SEED, BATCHES, WRITES, RECOVERY_CUTS, RESERVED, KEY_FILE],
        plain: &[],
    },
    run,
};

/// What a drill is asked for.
struct Settings {
    reserved: u64,
    seed: u64,
    batches: u64,
    writes: u64,
    recovery_cuts: Option<u64>,
    key_file: Option<OsString>,
}

/// A drill under way.
struct Drill<'a> {
    volume: Volume,
    contents: Contents,
    cuts: Cuts<'a>,
    /// The stores made so far.
    stores: u64,
    /// The length of a section, M: the store of a batch that acknowledges it.
    section_sectors: u64,
    progress: Progress,
}

/// Why a drill ends before its history does.
enum Stop {
    Refused(Refusal),
    Lost(Lost),
}

fn run(mut arguments: Arguments, out: &mut dyn Write) -> Result<Outcome, Failure> {
    let settings = Settings {
        reserved: reserved(&arguments)?,
        seed: arguments.number(SEED, 0..=u64::MAX)?.unwrap_or(1),
        batches: arguments.number(BATCHES, 1..=1000)?.unwrap_or(8),
        writes: arguments.number(WRITES, 1..=160)?.unwrap_or(16),
        recovery_cuts: arguments.number(RECOVERY_CUTS, 0..=u64::MAX)?,
        key_file: arguments.value(KEY_FILE).map(|name| name.to_os_string()),
    };
    let tags = tags(&arguments)?;
    let path = arguments.path("IMAGE")?;
    arguments.finish()?;

    let refused = |refusal| tags.refused(&path, refusal);
    let bytes = files::read_image(&path)?;
    let volume = tags.recovered(bytes, settings.reserved).map_err(refused)?;
    let history = settings.history(&volume);
    let mut drill = Drill::new(volume, &tags, &settings, &history).map_err(refused)?;
    let played = drill.play(&history);
    let Drill { cuts, stores, .. } = drill;
    writeln!(out, "seed {}", settings.seed)?;
    writeln!(out, "batches {}", settings.batches)?;
    writeln!(out, "stores {stores}")?;
    writeln!(out, "cuts {}", cuts.made)?;
    writeln!(out, "recoveries cut {}", cuts.recoveries_cut)?;
    match played {
        Ok(()) => {
            writeln!(out, "every cut survived")?;
            Ok(Outcome::Clean)
        }
        Err(Stop::Refused(refusal)) => Err(refused(refusal)),
        Err(Stop::Lost(lost)) => {
            report(out, &settings, stores, &lost)?;
            Ok(Outcome::Bad)
        }
    }
}

/// Tells of a cut that was not survived, with all that is needed to see it again.
fn report(out: &mut dyn Write, settings: &Settings, stores: u64, lost: &Lost) -> io::Result<()> {
    write!(
        out,
        "not survived: a cut after {}",
        counted(stores, "store")
    )?;
    if let Some(stores) = lost.recovery_stores {
        let stores = counted(stores, "store");
        write!(out, ", and one after {stores} of the recovery")?;
    }
    writeln!(out, ": {}", lost.what)?;
    let Settings {
        reserved,
        seed,
        batches,
        writes,
        recovery_cuts,
        key_file,
    } = settings;
    write!(
        out,
        "again, with the image as it is: {RESERVED} {reserved} {SEED} {seed} {BATCHES} {batches} {WRITES} {writes}"
    )?;
    if let Some(most) = recovery_cuts {
        write!(out, " {RECOVERY_CUTS} {most}")?;
    }
    if let Some(name) = key_file {
        write!(out, " {KEY_FILE} {}", name.display())?;
    }
    writeln!(out)
}

impl Settings {
    /// The batches to play.
    fn history(&self, volume: &Volume) -> Vec<Batch> {
        let entries = sizes(volume.layout()).entries;
        let writes = entries.min(self.writes as usize);
        let provided = volume.layout().provided;
        history::random(self.seed, self.batches, writes, provided)
    }
}

/// How many stores a history makes: for each batch those of its commit, and those that write its entries back.
fn stores(history: &[Batch], sizes: &Sizes) -> u64 {
    let entries = history.iter().flatten();
    let written_back: u64 = entries.map(|(sector, _)| sizes.stores(*sector)).sum();
    (history.len() * sizes.section_sectors) as u64 + written_back
}

impl Drill<'_> {
    fn new<'a>(
        volume: Volume,
        tags: &'a Tags,
        settings: &Settings,
        history: &[Batch],
    ) -> Result<Drill<'a>, Refusal> {
        let contents = Contents::of(&volume)?;
        let sizes = sizes(volume.layout());
        let progress = Progress::new("drilling", stores(history, &sizes) + 1);
        let most = settings.recovery_cuts.unwrap_or(u64::MAX);
        Ok(Drill {
            cuts: Cuts::new(&volume, tags, most),
            volume,
            contents,
            stores: 0,
            section_sectors: sizes.section_sectors as u64,
            progress,
        })
    }

    /// Plays all batches, with a cut before the first store and after every one.
    fn play(&mut self, history: &[Batch]) -> Result<(), Stop> {
        self.cut()?;
        for batch in history {
            self.play_batch(batch)?;
        }
        Ok(())
    }

    /// Plays a batch. It is in the contents from the M-th store after its flush on, which must acknowledge it.
    fn play_batch(&mut self, batch: &Batch) -> Result<(), Stop> {
        let writes = batch.iter().map(|(sector, bytes)| (*sector, bytes));
        write_batch(&mut self.volume, writes)?;
        for store in 1.. {
            let advanced = self.volume.advance(1).map_err(Refusal::from)?;
            if advanced.done == 0 {
                break;
            }
            self.stores += 1;
            let due = store == self.section_sectors;
            if due {
                self.contents.enter(batch);
            }
            if advanced.acknowledged != due {
                let what = format!(
                    "store {store} of a batch says the wrong thing of its being acknowledged"
                );
                return Err(Lost::now(what).into());
            }
            self.cut()?;
        }
        Ok(())
    }

    fn cut(&mut self) -> Result<(), Lost> {
        self.progress.advance();
        self.cuts.cut(self.volume.bytes(), &self.contents)
    }
}

impl From<Refusal> for Stop {
    fn from(refusal: Refusal) -> Stop {
        Stop::Refused(refusal)
    }
}

impl From<Lost> for Stop {
    fn from(lost: Lost) -> Stop {
        Stop::Lost(lost)
    }
}

#[cfg(test)]
mod tests;
