//! Buffers of wrong lengths, and state buffers of any bytes.

use crate::by_reference::{holds_state, numbers_in, put_numbers};
use crate::by_reference::{COUNT, ID, PHASE, UNUSED};
use crate::loans::{Buffers, Loans};
use gaffreel::volume::{State, MOST_SECTORS, STATE_LENGTH};
use random::{cases, Lent, Random};
use reference::volume::{self, Layout, Phase};
use volumes::any::{any_number, any_range};
use volumes::keyed::{any_key, wrong_key_length};
use volumes::{empty_staging, formatted, geometry, put_section, section, Entry};

/// The tag of sector 17 lies across two sectors.
const LAYOUT: Layout = Layout {
    reserved: 1,
    log2_run: 5,
    tag_size: 30,
    sections: 1,
    provided: 18,
};

/// A sound state in any phase, with a journal and staging for it.
pub fn sound(random: &mut Random) -> Loans {
    let geometry = geometry(&LAYOUT);
    let entries = [Entry::new(3, 7), Entry::new(17, 8)];
    let mut volume = formatted(&LAYOUT, random.length(0..=1));
    put_section(&mut volume, &geometry, 0, &section(&geometry, 1, &entries));
    let mut loans = Loans::new(random, &volume, &section(&geometry, 0, &entries));
    let (phase, count) = match random.number() % 4 {
        0 => (Phase::Filling, random.number() % 81),
        1 => (Phase::Committing { sector: 3 }, 2),
        2 => {
            let store = random.number() % 3;
            (Phase::WritingBack { entry: 1, store }, 2)
        }
        _ => {
            let store = random.pick(&[3, 4]);
            (Phase::Recovering { store }, 0)
        }
    };
    loans.put_state(&volume::State {
        layout: LAYOUT,
        phase,
        count,
        id: 2,
    });
    loans
}

/// Each call, each on loans of its own; format, open, write, read and verify also with a key, which may have a wrong length too.
fn each_call(random: &mut Random, loans: &Loans) {
    each_call_as_it_is(random, loans);
    let mut loans = loans.clone();
    let key = match random.number() % 3 {
        0 => vec![5; wrong_key_length(random)],
        _ => any_key(random),
    };
    loans.put_key(random, Some(&key));
    each_call_as_it_is(random, &loans);
}

fn each_call_as_it_is(random: &mut Random, loans: &Loans) {
    let sector = random.number() % 6;
    loans.clone().query(LAYOUT.reserved);
    loans.clone().open(LAYOUT.reserved);
    loans.clone().write(sector);
    loans.clone().flush();
    loans.clone().step();
    loans.clone().next_store();
    loans.clone().advance(random.pick(&[0, 1, 5, u64::MAX]));
    loans.clone().read(sector);
    let (first, count) = any_range(random, LAYOUT.provided);
    loans.clone().verify(first, count);
    let mut loans = loans.clone();
    if loans.lent().volume.bytes().len() >= 9 * 512 && random.number().is_multiple_of(2) {
        // Else the superblock is not zero.
        loans.put(|lent| &mut lent.volume, 512, &[0; 8 * 512]);
    }
    loans.format(&LAYOUT);
}

/// A random length other than `right`, often the one above or below.
pub fn wrong_length(random: &mut Random, right: usize) -> usize {
    match random.number() % 5 {
        0 if right > 0 => right - 1,
        1 => right + 1,
        2 if right > 0 => random.length(0..=right - 1),
        3 if right > 0 => random.pick(&[0, 2 * right]),
        _ => random.length(right + 1..=right + 600),
    }
}

/// The same bytes as far as they go, and any behind them.
fn resized(random: &mut Random, buffer: &Lent) -> Lent {
    let length = wrong_length(random, buffer.bytes().len());
    let mut resized = random.bytes(length);
    for (byte, kept) in resized.iter_mut().zip(buffer.bytes()) {
        *byte = *kept;
    }
    Lent::of(random, &resized)
}

#[test]
fn wrong_lengths() {
    cases(5_000, |random| {
        let mut loans = sound(random);
        for _ in 0..random.length(1..=2) {
            let which: fn(&mut Buffers) -> &mut Lent = match random.number() % 8 {
                0 | 1 => |lent| &mut lent.state,
                2 | 3 => |lent| &mut lent.answer,
                4 => |lent| &mut lent.layout,
                5 => |lent| &mut lent.volume,
                6 => |lent| &mut lent.staging,
                _ => |lent| &mut lent.bytes,
            };
            let resized = resized(random, which(&mut loans.lent().clone()));
            loans.lend(which, &resized);
        }
        each_call(random, &loans);
    });
}

/// Replaces numbers of a state that is sound.
fn spoil_state(random: &mut Random, buffer: &mut [u8]) {
    for _ in 0..random.length(1..=2) {
        // The phase and its place, count and id; seldom the layout.
        let place = match random.number() % 8 {
            0 => random.length(0..=PHASE - 1),
            _ => random.length(PHASE..=ID),
        };
        let number = match random.number() % 3 {
            0 => random.number() % 6,
            1 => 1 << random.length(0..=63),
            _ => any_number(random),
        };
        put_numbers(&mut buffer[8 * place..][..8], &[number]);
    }
}

#[test]
fn states_of_any_bytes() {
    cases(5_000, |random| {
        let mut loans = sound(random);
        let mut state = loans.lent().state.bytes().to_vec();
        spoil_state(random, &mut state);
        if random.number().is_multiple_of(16) {
            random.fill(&mut state);
        }
        loans.put(|lent| &mut lent.state, 0, &state);
        each_call(random, &loans);
    });
}

/// Whether bytes hold a state, and that a state's bytes are those that it came from.
#[test]
fn states_from_bytes() {
    cases(50_000, |random| {
        let mut bytes = [0; STATE_LENGTH];
        random.fill(&mut bytes);
        let phase = random.number() % 5;
        let place = [random.pick(&[0, 0, 1, 9]), random.pick(&[0, 0, 1, 2, 3])];
        let unused = [0; 3].map(|none| random.pick(&[none, none, none, 1, 1 << 56]));
        let numbers = [&unused[..], &[phase], &place].concat();
        put_numbers(&mut bytes[8 * UNUSED..], &numbers);
        let state = State::from_bytes(bytes);
        assert_eq!(state.is_some(), holds_state(&bytes));
        if let Some(state) = state {
            assert_eq!(state.to_bytes(), bytes);
            let numbers = numbers_in(&bytes);
            assert_eq!(state.layout.provided, numbers[4]);
            assert_eq!((state.count, state.id), (numbers[COUNT], numbers[ID]));
        }
    });
}

/// Volumes as long as may be, and longer.
#[test]
fn volumes_around_the_limit() {
    cases(1, |random| {
        let good = sound(random);
        let mut volume = good.lent().volume.bytes().to_vec();
        for length in [
            MOST_SECTORS * 512 - 1,
            MOST_SECTORS * 512,
            MOST_SECTORS * 512 + 1,
            (MOST_SECTORS + 1) * 512,
        ] {
            volume.resize(length, 0x5a);
            let mut loans = good.clone();
            let staging = Lent::of(random, &empty_staging(&geometry(&LAYOUT)));
            loans.lend(|lent| &mut lent.staging, &staging);
            loans.lend(|lent| &mut lent.volume, &Lent::of(random, &volume));
            let fits = u32::from(length != MOST_SECTORS * 512);
            assert_eq!(loans.query(LAYOUT.reserved), fits);
            assert_eq!(loans.open(LAYOUT.reserved), fits);
            // Open leaves a recovery.
            assert_eq!(loans.verify(0, 5), if fits == 0 { 9 } else { 1 });
            for step in [Loans::next_store, Loans::step] {
                // Staging too: open made it an empty section.
                loans.lend(|lent| &mut lent.state, &good.lent().state);
                loans.lend(|lent| &mut lent.staging, &good.lent().staging);
                assert_eq!(step(&mut loans), fits);
            }
            let number = loans.format(&LAYOUT);
            assert_eq!(number, if fits == 0 { 3 } else { 1 });
        }
    });
}
