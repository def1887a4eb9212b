//! Long histories: calls in a row on one small volume, its state kept from call to call, with cuts, damaged bytes and ids
//! near the last. Under a key, the calls also come with another key, with one of a wrong length and without one. Asked of them:
//! that each call answers each number that it can in a history, that all tag sizes come, and steps and cuts where a tag is stored
//! in part.

use crate::by_reference::{numbers_in, PHASE, RECOVERING, SECOND, WRITING_BACK};
use crate::loans::{Loans, Place, DONE};
use random::{cases, Lent, Random, Reached};
use reference::volume::{Geometry, Layout, TagRule};
use volumes::any::{any_number, any_range, any_sector, any_tag_size, with_tag_across_sectors};
use volumes::keyed::{any_key, other_key, wrong_key_length};
use volumes::tag_sizes::TagSizes;
use volumes::{formatted_by, geometry, put_id, put_ids};

/// What was called, and the number that it answered.
type Answered = (&'static str, u32);

/// What histories answer in plenty.
const OFTEN: [Answered; 16] = [
    ("query", DONE),
    ("open", DONE),
    ("write", DONE),
    ("write", 6),
    ("write", 9),
    ("flush", DONE),
    ("flush", 9),
    ("step", DONE),
    ("next_store", DONE),
    ("advance", DONE),
    ("read", DONE),
    ("read", 6),
    ("read", 9),
    ("verify", DONE),
    ("verify", 6),
    ("verify", 9),
];

/// What they answer where bytes are damaged, ids used up or batches full.
const SELDOM: [Answered; 17] = [
    ("query", 4),
    ("open", 4),
    ("open", 6),
    ("open", 7),
    ("open", 10),
    ("write", 1),
    ("write", 8),
    ("flush", 1),
    ("flush", 10),
    ("step", 1),
    ("step", 6),
    ("next_store", 1),
    ("next_store", 6),
    ("advance", 6),
    ("read", 7),
    ("verify", 1),
    ("verify", 7),
];

/// What the calls with a key answer besides, where they come with another.
const WITH_ANOTHER_KEY: [Answered; 9] = [
    ("open with another key", DONE),
    ("open with another key", 2),
    ("open with another key", 7),
    ("write with another key", DONE),
    ("write with another key", 2),
    ("read with another key", 2),
    ("read with another key", 7),
    ("verify with another key", 2),
    ("verify with another key", 7),
];

/// Where a tag is stored in part: between its two stores.
const IN_A_TAG: [Place; 2] = [(WRITING_BACK, 2), (RECOVERING, 2)];

/// Small volumes, so that all their bytes are soon compared; most have the smaller sections of longer tags.
fn layout(random: &mut Random, sections: &[u64]) -> Layout {
    let any = any_tag_size(random);
    let layout = Layout {
        reserved: random.pick(&[0, 0, 1]),
        log2_run: random.pick(&[3, 3, 4]),
        tag_size: random.pick(&[any, any, 32]),
        sections: random.pick(sections),
        provided: random.length(1..=12) as u64,
    };
    match random.number() % 3 {
        0 => with_tag_across_sectors(random, layout),
        _ => layout,
    }
}

/// A formatted volume; in some cases an id near the last stands on a sector of its journal.
fn volume(random: &mut Random, layout: &Layout, geometry: &Geometry, rule: TagRule) -> Vec<u8> {
    let mut volume = formatted_by(rule, layout, random.length(0..=1));
    if random.number().is_multiple_of(3) {
        let section = random.length(0..=geometry.sections - 1);
        let sector = random.length(0..=geometry.section_sectors - 1);
        let id = u64::MAX - random.pick(&[1, 2, 3, 4, 5, 8]);
        put_id(&mut volume, geometry, section, sector, id);
    }
    volume
}

struct History<'a> {
    random: &'a mut Random,
    reached: &'a mut Reached<Answered>,
    /// The places of cuts.
    cuts: &'a mut Reached<Option<Place>>,
    layout: Layout,
    geometry: Geometry,
    /// The key of the volume, if it has one.
    key: Option<Vec<u8>>,
    loans: Loans,
    calls: usize,
}

/// The rule of a key, or of none.
fn rule(key: &Option<Vec<u8>>) -> TagRule<'_> {
    key.as_deref().map_or(TagRule::Digest, TagRule::Hmac)
}

impl History<'_> {
    /// Makes a call, seldom with another key than the volume's, of any length, or without one; its name then tells.
    fn with_a_key(
        &mut self,
        call: &'static str,
        with_another: &'static str,
        made: impl FnOnce(&mut Loans) -> u32,
    ) -> u32 {
        let Some(key) = &self.key else {
            let number = made(&mut self.loans);
            return self.answered(call, number);
        };
        if !self.random.number().is_multiple_of(16) {
            let number = made(&mut self.loans);
            return self.answered(call, number);
        }
        let other = match self.random.number() % 4 {
            0 => None,
            1 => Some(vec![7; wrong_key_length(self.random)]),
            _ => Some(other_key(self.random, key)),
        };
        self.loans.put_key(self.random, other.as_deref());
        let number = made(&mut self.loans);
        self.loans.put_key(self.random, self.key.as_deref());
        self.answered(with_another, number)
    }

    fn answered(&mut self, call: &'static str, number: u32) -> u32 {
        self.calls += 1;
        self.reached.add((call, number));
        number
    }

    /// Often one of a few sectors, so that the same one is written again.
    fn sector(&mut self) -> u64 {
        match self.random.number() % 12 {
            0 => self.layout.provided,
            1 => any_number(self.random),
            2..=5 => any_sector(self.random, &self.layout),
            _ => self.random.number() % self.layout.provided.min(3),
        }
    }

    fn write(&mut self) {
        self.loans.fill(self.random, |lent| &mut lent.bytes);
        let sector = self.sector();
        self.with_a_key("write", "write with another key", |loans| {
            loans.write(sector)
        });
    }

    /// A few writes; seldom as many as make the batch full.
    fn writes(&mut self) {
        let count = match self.random.number() % 32 {
            0 => self.geometry.entries + self.geometry.entries / 2,
            _ => self.random.length(1..=4),
        };
        for _ in 0..count {
            self.write();
        }
    }

    fn flush(&mut self) {
        let number = self.loans.flush();
        self.answered("flush", number);
    }

    /// Steps, of which the stores are made by the call or told by it.
    fn steps(&mut self) {
        let (call, step): (_, fn(&mut Loans) -> u32) = match self.random.number() % 3 {
            0 => ("next_store", Loans::told_step),
            _ => ("step", Loans::step),
        };
        let count = match self.random.number() % 3 {
            0 => self.random.length(1..=4),
            1 => self.random.length(1..=self.geometry.section_sectors),
            _ => self.geometry.section_sectors + self.random.length(0..=8),
        };
        for _ in 0..count {
            let number = step(&mut self.loans);
            self.answered(call, number);
            // Further steps would be all the same.
            if number != DONE || self.loans.answer()[0] == 0 {
                return;
            }
            if self.in_a_tag_written_back() && self.random.number().is_multiple_of(4) {
                return self.cut();
            }
        }
    }

    /// Whether the state names the third store of an entry that is written back.
    fn in_a_tag_written_back(&self) -> bool {
        let numbers = numbers_in(self.loans.lent().state.bytes());
        (numbers[PHASE], numbers[SECOND]) == IN_A_TAG[0]
    }

    fn advance(&mut self) {
        let steps = match self.random.number() % 3 {
            0 => self.random.number() % 4,
            1 => self.random.number() % (self.geometry.section_sectors as u64 + 8),
            _ => any_number(self.random),
        };
        let number = self.loans.advance(steps);
        self.answered("advance", number);
    }

    fn reads(&mut self) {
        for _ in 0..4 {
            let sector = self.sector();
            self.with_a_key("read", "read with another key", |loans| loans.read(sector));
        }
    }

    fn verifies(&mut self) {
        for _ in 0..2 {
            let (first, count) = any_range(self.random, self.layout.provided);
            self.with_a_key("verify", "verify with another key", |loans| {
                loans.verify(first, count)
            });
        }
    }

    /// Power is lost, a few calls find no state, and the volume is opened, or else another is.
    fn cut(&mut self) {
        self.cuts.add(self.loans.lent().place());
        self.loans.cut(self.random);
        if self.random.number().is_multiple_of(4) {
            self.write();
            self.flush();
            self.steps();
            self.verifies();
        }
        let number = self.loans.query(self.layout.reserved);
        self.answered("query", number);
        let reserved = self.layout.reserved;
        let opened = self.with_a_key("open", "open with another key", |loans| {
            loans.open(reserved)
        });
        if opened != DONE {
            let rule = rule(&self.key);
            let volume = volume(self.random, &self.layout, &self.geometry, rule);
            let volume = Lent::of(self.random, &volume);
            self.loans.lend(|lent| &mut lent.volume, &volume);
            let number = self.loans.open(self.layout.reserved);
            assert_eq!(self.answered("open", number), DONE);
        }
    }

    /// A byte of the volume or of staging is another: often one of the runs.
    fn damage(&mut self) {
        let (journal, base) = (self.geometry.journal() * 512, self.geometry.base * 512);
        let section = self.geometry.section_sectors * 512;
        let volume = self.geometry.sectors * 512;
        // The 8 metadata sectors of a section have its entries.
        let entries = self.random.length(0..=self.geometry.sections - 1) * section + journal;
        let (first, end) = match self.random.number() % 16 {
            0 => (0, volume),
            1 => (journal, base),
            2 | 3 => (entries, entries + 64),
            4 => (journal - 8 * 512, journal - 8 * 512 + 24),
            5 => return self.damage_staging(),
            _ => (base, volume),
        };
        let place = self.random.length(first..=end - 1);
        let byte = self.loans.lent().volume.bytes()[place] ^ 1 << self.random.length(0..=7);
        self.loans.put(|lent| &mut lent.volume, place, &[byte]);
    }

    /// The first entry's sector is another, often one that is not provided.
    fn damage_staging(&mut self) {
        let sector = self.sector();
        let sector = self.random.pick(&[sector, self.layout.provided]);
        let bytes = sector.to_le_bytes();
        self.loans.put(|lent| &mut lent.staging, 0, &bytes);
    }

    /// All sectors of a section get an id.
    fn replace_id(&mut self) {
        let section = self.random.length(0..=self.geometry.sections - 1);
        let any = any_number(self.random);
        let id = self.random.pick(&[any, any, u64::MAX]);
        let mut volume = self.loans.lent().volume.bytes().to_vec();
        put_ids(&mut volume, &self.geometry, section, id);
        self.loans.put(|lent| &mut lent.volume, 0, &volume);
    }

    /// Calls of one kind.
    fn go_on(&mut self) {
        match self.random.number() % 64 {
            0..=15 => self.writes(),
            16..=27 => self.flush(),
            28..=43 => self.steps(),
            44..=49 => self.advance(),
            50..=54 => self.reads(),
            55..=57 => self.verifies(),
            58..=61 => self.cut(),
            62 => self.damage(),
            _ if self.random.number().is_multiple_of(4) => self.replace_id(),
            _ => self.damage(),
        }
    }
}

/// Histories of so many calls each, on journals of so many sections.
fn histories(
    count: u64,
    sections: &[u64],
    key: fn(&mut Random) -> Option<Vec<u8>>,
) -> Reached<Answered> {
    let mut reached = Reached::new();
    let mut cuts = Reached::new();
    let mut sizes = TagSizes::new();
    cases(count, |random| {
        let layout = layout(random, sections);
        sizes.add(&layout);
        let geometry = geometry(&layout);
        let key = key(random);
        let volume = volume(random, &layout, &geometry, rule(&key));
        let staging = random.bytes(geometry.staging_length());
        let mut loans = Loans::new(random, &volume, &staging);
        loans.put_key(random, key.as_deref());
        let mut history = History {
            loans,
            random,
            reached: &mut reached,
            cuts: &mut cuts,
            layout,
            geometry,
            key,
            calls: 0,
        };
        history.cut();
        while history.calls < 1_500 {
            history.go_on();
        }
    });
    reached.assert_each(1_000, OFTEN);
    reached.assert_each(20, SELDOM);
    let [written_back, recovered] = IN_A_TAG.map(Some);
    cuts.assert_each(20, [written_back]);
    cuts.assert_each(3, [recovered]);
    sizes.assert_all(50);
    reached
}

#[test]
fn with_one_section() {
    histories(800, &[1], |_| None);
}

#[test]
fn with_two_or_three_sections() {
    let reached = histories(600, &[2, 3], |_| None);
    // A section's wrong place: with one section there is none.
    reached.assert_each(20, [("open", 11)]);
}

#[test]
fn under_a_key() {
    let reached = histories(600, &[1, 1, 2, 3], |random| Some(any_key(random)));
    reached.assert_each(20, WITH_ANOTHER_KEY);
}
