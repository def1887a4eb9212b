//! A volume that is mapped for reading only, worked by [`Volume::next_store`]. Some of the stores fail: they are made again, or
//! given up with state and staging. What the volume holds is what the ledger says, which has a cut in the place of a step whose
//! store is given up.

use crate::mapped::Mapped;
use gaffreel::volume::{Phase, Said, Sector, Stepped, Stopped, Volume, SECTOR_LENGTH};
use gaffreel::Refusal;
use random::{cases, count_compared, Random, Reached};
use reference::volume::ledger::{Event, Ledger, Record};
use reference::volume::{Layout, TagRule};
use volumes::any::{small_layout, with_tag_across_sectors};
use volumes::keyed::any_key;
use volumes::{formatted, formatted_by, geometry, put_section, section, Entry};

/// What becomes of a store.
#[derive(Clone, Copy, Debug, PartialEq, Eq, PartialOrd, Ord)]
enum Outcome {
    Made,
    /// It fails, and is made again.
    MadeAgain,
    /// State and staging are thrown away, and the volume is opened again.
    GivenUp,
}

/// What a store is for.
#[derive(Clone, Copy, Debug, PartialEq, Eq, PartialOrd, Ord)]
enum Kind {
    Commit,
    /// The one that acknowledges the batch.
    LastCommit,
    WriteBack,
    /// What of a tag lies in the next sector, in writing back.
    RestOfTag,
    Replay,
}

struct Flash<'a> {
    random: &'a mut Random,
    reached: &'a mut Reached<(Kind, Outcome)>,
    layout: Layout,
    key: Option<Vec<u8>>,
    ledger: Ledger,
    volume: Volume<Mapped>,
}

/// Opens a volume, with a key or without one.
fn open(mapped: Mapped, layout: &Layout, key: &Option<Vec<u8>>) -> Volume<Mapped> {
    let opened = match key {
        Some(key) => Volume::open_keyed(mapped, layout.reserved, key),
        None => Volume::open(mapped, layout.reserved),
    };
    opened.unwrap()
}

impl Flash<'_> {
    fn record(&mut self, event: Event, refused: bool) {
        self.ledger.add(&Record { event, refused });
    }

    fn writes(&mut self) {
        for _ in 0..self.random.length(1..=4) {
            let sector = volumes::any::any_sector(self.random, &self.layout);
            let bytes = any_sector(self.random);
            let refused = self.volume.write(sector, &bytes).is_err();
            let bytes = bytes.to_vec();
            self.record(Event::Write { sector, bytes }, refused);
        }
    }

    fn flush(&mut self) {
        let refused = self.volume.flush().is_err();
        self.record(Event::Flush, refused);
    }

    /// Power is cut, and the volume is opened again.
    fn cut(&mut self) {
        let mapped = Mapped::new(self.volume.bytes());
        self.volume = open(mapped, &self.layout, &self.key);
        self.record(Event::Cut, false);
        self.record(Event::Open, false);
        if self.volume.stores_to_come() == 0 {
            self.check();
        }
    }

    /// A step, if its store is not given up.
    fn step(&mut self) {
        let phase = self.volume.state().phase;
        let mut content = any_sector(self.random);
        let stepped = self.volume.next_store(&mut content).unwrap();
        let Some(sector) = stepped.stored else {
            return self.record(Event::Step, false);
        };
        let kind = kind(phase, stepped.said);
        let outcome = outcome(self.random, kind);
        self.reached.add((kind, outcome));
        match outcome {
            Outcome::GivenUp => return self.cut(),
            Outcome::MadeAgain => self.fail(stepped, sector as usize, &content),
            Outcome::Made => {}
        }
        self.volume.bytes_mut().store(sector as usize, &content);
        self.made(stepped);
    }

    /// Stores that fail, and leave the sector as it was, half written, or whole. No other call is taken, and the same store is
    /// told again.
    fn fail(&mut self, stepped: Stepped, sector: usize, content: &Sector) {
        for _ in 0..self.random.length(1..=3) {
            let landed = self.random.pick(&[0, 0, SECTOR_LENGTH / 2, SECTOR_LENGTH]);
            let flash = self.volume.bytes_mut();
            flash.store(sector, &content[..landed]);
            assert_eq!(self.volume.write(0, content), Err(Refusal::NotNow));
            assert_eq!(self.volume.flush(), Err(Refusal::NotNow));
            assert_eq!(self.volume.read(0), Err(Refusal::NotNow));
            assert_eq!(self.volume.verify(0, 1), Err(Refusal::NotNow));
            let mut again = any_sector(self.random);
            assert_eq!(self.volume.next_store(&mut again), Ok(stepped));
            assert!(again == *content);
            count_compared();
        }
    }

    /// The store is made, and what the step says holds.
    fn made(&mut self, stepped: Stepped) {
        let said = self.volume.store_made();
        assert_eq!(said, stepped.said);
        let entered = self.ledger.entered;
        self.record(Event::Step, false);
        assert_eq!(said == Said::Acknowledged, self.ledger.entered > entered);
        count_compared();
        if said == Said::Filling {
            self.check();
        }
    }

    /// Each sector is what the ledger says, and each tag fits.
    fn check(&self) {
        for sector in 0..self.layout.provided {
            let newest = self.ledger.newest(sector).unwrap();
            assert!(self.volume.read(sector).unwrap() == newest[..]);
            count_compared();
        }
        assert_eq!(self.volume.verify(0, self.layout.provided), Ok(()));
    }

    /// A batch, in some cases cut, or left where it is.
    fn batch(&mut self) {
        self.writes();
        self.flush();
        let most = geometry(&self.layout).section_sectors + 10;
        let any = self.random.length(0..=most);
        let steps = self.random.pick(&[most, most, any]);
        for _ in 0..steps {
            self.step();
        }
        if self.random.number().is_multiple_of(4) {
            self.cut();
        }
    }

    /// Takes the steps that are left.
    fn finish(&mut self) {
        while self.volume.state().phase != Phase::Filling {
            self.step();
        }
        self.check();
    }
}

/// The kind of a store, from the phase before it and what its step says.
fn kind(phase: Phase, said: Said) -> Kind {
    match (phase, said) {
        (Phase::Recovering { .. }, _) => Kind::Replay,
        (Phase::WritingBack { store: 2, .. }, _) => Kind::RestOfTag,
        (Phase::WritingBack { .. }, _) => Kind::WriteBack,
        (_, Said::Acknowledged) => Kind::LastCommit,
        _ => Kind::Commit,
    }
}

/// Few stores fail of a kind that a batch or a recovery has many of, so that it comes to its end.
fn outcome(random: &mut Random, kind: Kind) -> Outcome {
    let choices = match kind {
        Kind::Commit => 300,
        Kind::Replay => 32,
        Kind::LastCommit | Kind::WriteBack => 6,
        Kind::RestOfTag => 4,
    };
    match random.number() % choices {
        0 => Outcome::GivenUp,
        1 | 2 => Outcome::MadeAgain,
        _ => Outcome::Made,
    }
}

fn any_sector(random: &mut Random) -> Sector {
    let mut sector = [0; SECTOR_LENGTH];
    random.fill(&mut sector);
    sector
}

/// A key of any kind, or none.
type Key = fn(&mut Random) -> Option<Vec<u8>>;

fn batches(random: &mut Random, reached: &mut Reached<(Kind, Outcome)>, key: Key) {
    let layout = small_layout(random);
    let layout = match random.number() % 2 {
        0 => with_tag_across_sectors(random, layout),
        _ => layout,
    };
    let key = key(random);
    let rule = key.as_deref().map_or(TagRule::Digest, TagRule::Hmac);
    let mapped = Mapped::new(&formatted_by(rule, &layout, 0));
    let mut flash = Flash {
        random,
        reached,
        layout,
        ledger: Ledger::new(&layout).unwrap(),
        volume: open(mapped, &layout, &key),
        key,
    };
    for _ in 0..10 {
        flash.batch();
    }
    flash.finish();
}

#[test]
fn made_again_or_given_up() {
    made_again_or_given_up_under(|_| None);
}

#[test]
fn made_again_or_given_up_with_a_key() {
    made_again_or_given_up_under(|random| Some(any_key(random)));
}

fn made_again_or_given_up_under(key: Key) {
    let mut reached = Reached::new();
    cases(100, |random| batches(random, &mut reached, key));
    for kind in [
        Kind::Commit,
        Kind::LastCommit,
        Kind::WriteBack,
        Kind::Replay,
    ] {
        let outcomes = [Outcome::Made, Outcome::MadeAgain, Outcome::GivenUp];
        reached.assert_each(50, outcomes.map(|outcome| (kind, outcome)));
    }
    let outcomes = [Outcome::Made, Outcome::MadeAgain, Outcome::GivenUp];
    reached.assert_each(10, outcomes.map(|outcome| (Kind::RestOfTag, outcome)));
}

/// A section of it has 88 sectors.
const LAYOUT: Layout = Layout {
    reserved: 0,
    log2_run: 3,
    tag_size: 32,
    sections: 1,
    provided: 10,
};

/// Steps wait too, where the bytes are such that a step could store to them.
#[test]
fn other_steps_wait() {
    let mut volume = Volume::open(formatted(&LAYOUT, 0), 0).unwrap();
    volume.write(3, &[1; SECTOR_LENGTH]).unwrap();
    volume.flush().unwrap();
    assert_eq!(volume.store_made(), Said::Nothing);

    let mut content = [9; SECTOR_LENGTH];
    let sector = volume.next_store(&mut content).unwrap().stored.unwrap();
    assert_eq!(volume.step(), Err(Refusal::NotNow));
    let stopped = Stopped {
        refusal: Refusal::NotNow,
        done: 0,
        acknowledged: false,
    };
    assert_eq!(volume.advance(1), Err(stopped));

    let place = sector as usize * SECTOR_LENGTH;
    volume.bytes_mut()[place..][..SECTOR_LENGTH].copy_from_slice(&content);
    assert_eq!(volume.store_made(), Said::Nothing);
    let advanced = volume.advance(u64::MAX).unwrap();
    assert_eq!((advanced.done, advanced.acknowledged), (89, true));
    assert_eq!(volume.read(3), Ok([1; SECTOR_LENGTH]));
}

/// Where no store is told none is to be made, and the content is as it was: in filling, and after a refusal.
#[test]
fn no_store_to_be_made() {
    let geometry = geometry(&LAYOUT);
    let mut bytes = formatted(&LAYOUT, 0);
    let replayed = section(&geometry, 1, &[Entry::new(3, 1)]);
    put_section(&mut bytes, &geometry, 0, &replayed);
    let mut volume = Volume::open(bytes, 0).unwrap();

    // The entry is damaged once the volume is open: it names a sector that is not provided.
    let place = geometry.journal() * SECTOR_LENGTH;
    volume.bytes_mut()[place..][..8].copy_from_slice(&LAYOUT.provided.to_le_bytes());
    let (section, entry) = (0, 0);
    let refused = Err(Refusal::JournalSector { section, entry });
    let mut content = [9; SECTOR_LENGTH];
    assert_eq!(volume.next_store(&mut content), refused);
    assert_eq!(volume.step(), refused);

    volume.bytes_mut()[place..][..8].copy_from_slice(&3_u64.to_le_bytes());
    volume.advance(u64::MAX).unwrap();
    let idle = Stepped {
        stored: None,
        said: Said::Filling,
    };
    assert_eq!(volume.next_store(&mut content), Ok(idle));
    assert_eq!(volume.step(), Ok(idle));
    assert_eq!(content, [9; SECTOR_LENGTH]);
}
