//! Next stores on a volume that is mapped for reading only, whose owner alone stores to it, beside steps on another volume:
//! after each call all bytes of the two are the same.

use crate::advances::nearly_sound;
use crate::any_input::any_loans;
use crate::buffers::{sound, wrong_length};
use crate::by_reference::{numbers_in, PHASE};
use crate::by_reference::{COMMITTING, FILLING, RECOVERING, WRITING_BACK};
use crate::loans::{Buffers, Loans, Place, DONE};
use crate::mapped::Mapped;
use gaffreel::ffi;
use gaffreel::volume::{ANSWER_LENGTH, SECTOR_LENGTH, STATE_LENGTH};
use random::{cases, count_compared, Lent, Random, Reached};
use reference::volume::Layout;
use volumes::any::{any_layout, any_sector, small_layout, with_tag_across_sectors};
use volumes::{formatted, geometry};

const LENGTH_OR_STATE: u32 = 1;

/// What was done, and where.
type Done = (&'static str, Place);

const STEP: &str = "step";
const CUT_BEFORE: &str = "cut before the store";
const CUT_AFTER: &str = "cut after the store";

/// The places at which there is a store.
const STORING: [Place; 7] = [
    (COMMITTING, 0),
    (WRITING_BACK, 0),
    (WRITING_BACK, 1),
    (WRITING_BACK, 2),
    (RECOVERING, 0),
    (RECOVERING, 1),
    (RECOVERING, 2),
];

/// A volume that is worked by steps, and one mapped for reading only that is worked by next stores. State and staging are the
/// same for both after each call, so those of the first serve the other.
struct Pair {
    stepped: Loans,
    mapped: Mapped,
}

impl Pair {
    fn new(stepped: Loans) -> Pair {
        Pair {
            mapped: Mapped::new(stepped.lent().volume.bytes()),
            stepped,
        }
    }

    /// The place of a sound state.
    fn place(&self) -> Place {
        self.stepped.lent().place().expect("the state is sound")
    }

    /// The number of the phase that the state's buffer names, whatever else is in it; none where it is too short.
    fn phase(&self) -> Option<u64> {
        let numbers = numbers_in(self.stepped.lent().state.bytes());
        numbers.get(PHASE).copied()
    }

    /// The next store on the mapped volume: its number and the buffers that it leaves.
    fn tell(&mut self, random: &mut Random) -> (u32, Buffers) {
        self.stepped.fill(random, |lent| &mut lent.bytes);
        let mut told = self.stepped.lent().clone();
        let number = ffi::volume_next_store(
            told.state.buffer(),
            self.mapped.bytes(),
            told.staging.buffer(),
            told.bytes.buffer(),
            told.answer.buffer(),
        );
        (number, told)
    }

    /// A step on the one volume; on the other its store is told, and the owner makes it.
    fn step(&mut self, random: &mut Random) -> u32 {
        let (number, told) = self.tell(random);
        assert_eq!(self.stepped.step(), number);
        if let Some(sector) = told.named(number) {
            self.store(random, sector, told.bytes.bytes());
            let place = sector * SECTOR_LENGTH;
            let stored = self.stepped.lent().volume.bytes()[place..][..SECTOR_LENGTH].to_vec();
            self.stepped.put(|lent| &mut lent.bytes, 0, &stored);
        }
        self.assert_same(told, "next store");
        number
    }

    /// The owner makes a store, now and then only after one that failed half way, or once more.
    fn store(&mut self, random: &mut Random, sector: usize, content: &[u8]) {
        match random.number() % 8 {
            0 => self.mapped.store(sector, &content[..SECTOR_LENGTH / 2]),
            1 => self.mapped.store(sector, content),
            _ => {}
        }
        self.mapped.store(sector, content);
    }

    /// State and staging are lost, and both volumes are opened again. Gives the stores to come.
    fn open(&mut self, random: &mut Random, layout: &Layout) -> u64 {
        self.stepped.cut(random);
        let mut opened = self.stepped.lent().clone();
        let number = ffi::volume_open(
            self.mapped.bytes(),
            opened.staging.buffer(),
            layout.reserved as usize,
            opened.state.buffer(),
            opened.answer.buffer(),
        );
        assert_eq!(number, DONE);
        assert_eq!(self.stepped.open(layout.reserved), DONE);
        self.assert_same(opened, "open");
        self.stepped.answer()[0]
    }

    /// What a call on the mapped volume left, that volume too, is what the call on the other left.
    fn assert_same(&self, mut left: Buffers, call: &str) {
        left.volume.buffer().copy_from_slice(self.mapped.bytes());
        left.assert_same(self.stepped.lent(), "on the mapped volume", call);
        count_compared();
    }
}

/// A history of calls and cuts on a volume that nothing damages: each step is taken, and so is each open.
struct History<'a> {
    random: &'a mut Random,
    reached: &'a mut Reached<Done>,
    layout: Layout,
    pair: Pair,
}

impl History<'_> {
    fn writes(&mut self) {
        for _ in 0..self.random.length(1..=4) {
            self.pair.stepped.fill(self.random, |lent| &mut lent.bytes);
            let sector = any_sector(self.random, &self.layout);
            self.pair.stepped.write(sector);
        }
    }

    fn flush(&mut self) {
        self.pair.stepped.flush();
    }

    fn step(&mut self) {
        self.reached.add((STEP, self.pair.place()));
        assert_eq!(self.pair.step(self.random), DONE);
    }

    /// A few steps, or about as many as commit a batch.
    fn steps(&mut self) {
        let sectors = geometry(&self.layout).section_sectors;
        let count = match self.random.number() % 3 {
            0 => self.random.length(1..=4),
            1 => self.random.length(1..=sectors),
            _ => sectors + self.random.length(0..=6),
        };
        for _ in 0..count {
            self.step();
            if self.pair.place().0 == FILLING {
                return;
            }
        }
    }

    /// A cut before the store that a next store told, or after it.
    fn cut(&mut self) {
        let place = self.pair.place();
        if self.random.number().is_multiple_of(2) {
            self.reached.add((CUT_BEFORE, place));
            assert_eq!(self.pair.tell(self.random).0, DONE);
        } else {
            self.reached.add((CUT_AFTER, place));
            self.step();
        }
        // In some cases the recovery is cut, too.
        let stores = self.pair.open(self.random, &self.layout);
        if stores > 0 && self.random.number().is_multiple_of(2) {
            for _ in 0..self.random.length(0..=stores as usize - 1) {
                self.step();
            }
            self.cut();
        }
    }

    /// Calls of one kind, or a batch that is cut somewhere.
    fn go_on(&mut self) {
        match self.random.number() % 4 {
            0 => self.writes(),
            1 => self.flush(),
            2 => self.steps(),
            _ => {
                self.writes();
                self.flush();
                self.steps();
                self.cut();
            }
        }
    }
}

fn history(random: &mut Random, reached: &mut Reached<Done>) {
    let layout = small_layout(random);
    let layout = match random.number() % 2 {
        0 => with_tag_across_sectors(random, layout),
        _ => layout,
    };
    let volume = formatted(&layout, random.length(0..=1));
    let staging = random.bytes(geometry(&layout).staging_length());
    let mut pair = Pair::new(Loans::new(random, &volume, &staging));
    pair.open(random, &layout);
    let mut history = History {
        random,
        reached,
        layout,
        pair,
    };
    for _ in 0..40 {
        history.go_on();
    }
}

#[test]
fn histories_beside_steps() {
    let mut reached = Reached::new();
    cases(150, |random| history(random, &mut reached));
    for (done, least, of_third) in [(STEP, 500, 50), (CUT_BEFORE, 20, 2), (CUT_AFTER, 20, 2)] {
        for place in STORING {
            // Few entries have a third store.
            let least = if place.1 == 2 { of_third } else { least };
            reached.assert_each(least, [(done, place)]);
        }
    }
}

/// A few steps, and what they answer.
fn hostile_steps(random: &mut Random, reached: &mut Reached<(u32, Option<u64>)>, loans: Loans) {
    let mut pair = Pair::new(loans);
    for _ in 0..6 {
        let phase = pair.phase();
        let number = pair.step(random);
        reached.add((number, phase));
    }
}

/// Each number that a step can answer, and the phases in which it can.
const ANSWERED: [(u32, u64); 10] = [
    (DONE, FILLING),
    (DONE, COMMITTING),
    (DONE, WRITING_BACK),
    (DONE, RECOVERING),
    (LENGTH_OR_STATE, FILLING),
    (LENGTH_OR_STATE, COMMITTING),
    (LENGTH_OR_STATE, WRITING_BACK),
    (LENGTH_OR_STATE, RECOVERING),
    (6, WRITING_BACK),
    (6, RECOVERING),
];

fn in_phase((number, phase): (u32, u64)) -> (u32, Option<u64>) {
    (number, Some(phase))
}

/// Damaged journals, staging of any kind, states that are sound there or nearly.
#[test]
fn any_journal_beside_steps() {
    let mut reached = Reached::new();
    cases(3_000, |random| {
        let loans = nearly_sound(random);
        hostile_steps(random, &mut reached, loans);
    });
    let but_one = ANSWERED
        .into_iter()
        .filter(|kind| *kind != (LENGTH_OR_STATE, FILLING));
    reached.assert_each(100, but_one.map(in_phase));
}

/// Volumes, staging, states and answers of any kind and length. The content is a sector long: a step has none to refuse.
#[test]
fn any_input_beside_steps() {
    let mut reached = Reached::new();
    cases(6_000, |random| {
        let layout = any_layout(random);
        let mut loans = any_loans(random, &layout);
        loans.lend(|lent| &mut lent.bytes, &Lent::new(random, SECTOR_LENGTH));
        match random.number() % 16 {
            0 => {
                let length = wrong_length(random, ANSWER_LENGTH);
                loans.lend(|lent| &mut lent.answer, &Lent::new(random, length));
            }
            1 => {
                let length = wrong_length(random, STATE_LENGTH);
                loans.lend(|lent| &mut lent.state, &Lent::new(random, length));
            }
            2 => loans.fill(random, |lent| &mut lent.state),
            _ => {}
        }
        hostile_steps(random, &mut reached, loans);
    });
    reached.assert_each(20, ANSWERED.map(in_phase));
}

/// Any length but a sector's is refused with 1, and nothing but the answer is changed; with an answer of a wrong length,
/// which is tested first, nothing at all.
#[test]
fn content_of_each_length() {
    cases(4, |random| {
        for length in (0..=1024).filter(|length| *length != SECTOR_LENGTH) {
            let mut loans = sound(random);
            loans.lend(|lent| &mut lent.bytes, &Lent::new(random, length));
            if random.number().is_multiple_of(4) {
                loans.fill(random, |lent| &mut lent.state);
            }
            let before = loans.lent().clone();
            assert_eq!(loans.next_store(), LENGTH_OR_STATE);
            assert_eq!(loans.answer(), [0; 5]);
            loans.lend(|lent| &mut lent.answer, &before.answer);
            loans.lent().assert_same(&before, "refused", "next store");

            let other = wrong_length(random, ANSWER_LENGTH);
            loans.lend(|lent| &mut lent.answer, &Lent::new(random, other));
            let before = loans.lent().clone();
            assert_eq!(loans.next_store(), LENGTH_OR_STATE);
            loans.lent().assert_same(&before, "refused", "next store");
        }
    });
}

/// While the volume is filling no store is told, and the content is as it was.
#[test]
fn nothing_to_store() {
    cases(200, |random| {
        let mut pair = Pair::new(sound(random));
        while pair.place().0 != FILLING {
            assert_eq!(pair.step(random), DONE);
        }
        let mut loans = pair.stepped;
        let before = loans.lent().clone();
        assert_eq!(loans.next_store(), DONE);
        assert_eq!(loans.answer(), [0, 0, 2, 0, 0]);
        loans.lend(|lent| &mut lent.answer, &before.answer);
        loans
            .lent()
            .assert_same(&before, "in filling", "next store");
    });
}
