//! Volumes, staging, states and arguments of any kind, single calls and calls in a row.

use crate::loans::{Loans, DONE};
use random::{cases, Lent, Random};
use reference::volume::{Layout, Phase, State, TagRule};
use volumes::any::{any_layout, any_number, any_range, any_section, any_staging, any_state};
use volumes::any::{any_volume, small_layout, with_journal};
use volumes::keyed::{any_key, other_key, retag, wrong_key_length};
use volumes::tag_sizes::TagSizes;
use volumes::{formatted, geometry};

/// A volume of any kind, a state of any kind, staging for it, a sector's bytes of a length that is seldom wrong.
pub fn any_loans(random: &mut Random, layout: &Layout) -> Loans {
    let volume = any_volume(random, layout);
    let mut state = any_state(random, layout);
    if random.number().is_multiple_of(8) {
        // A state of another layout than the volume's.
        state.layout = any_layout(random);
    }
    let staging = any_staging(random, &state.layout);
    let mut loans = Loans::new(random, &volume, &staging);
    loans.put_state(&state);
    if random.number().is_multiple_of(8) {
        let length = random.pick(&[0, 511, 513, 1024]);
        loans.lend(|lent| &mut lent.bytes, &Lent::new(random, length));
    }
    loans
}

/// The number of reserved sectors that open and query are given.
fn any_reserved(random: &mut Random, layout: &Layout) -> u64 {
    let other = any_number(random);
    random.pick(&[layout.reserved, layout.reserved, layout.reserved, 0, other])
}

/// Often a sector that a small layout provides.
fn any_sector(random: &mut Random, layout: &Layout) -> u64 {
    match random.number() % 6 {
        0 => any_number(random),
        1 => layout.provided,
        _ => random.number() % 40,
    }
}

/// Often sectors that a layout provides.
fn any_verify(random: &mut Random, loans: &mut Loans, layout: &Layout) {
    let (first, count) = any_range(random, layout.provided);
    loans.verify(first, count);
}

/// How many steps an advance takes.
fn any_steps(random: &mut Random) -> u64 {
    match random.number() % 4 {
        0 => random.number() % 4,
        1 => random.number() % 200,
        2 => u64::MAX - random.number() % 4,
        _ => any_number(random),
    }
}

#[test]
fn any_call() {
    let mut sizes = TagSizes::new();
    cases(5_000, |random| {
        let layout = any_layout(random);
        sizes.add(&layout);
        let loans = any_loans(random, &layout);
        loans.clone().format(&layout);
        let reserved = any_reserved(random, &layout);
        loans.clone().query(reserved);
        loans.clone().open(reserved);
        let sector = any_sector(random, &layout);
        loans.clone().write(sector);
        loans.clone().flush();
        loans.clone().read(sector);
        any_verify(random, &mut loans.clone(), &layout);
        loans.clone().advance(any_steps(random));
        let mut told = loans.clone();
        let mut loans = loans;
        for _ in 0..4 {
            loans.step();
            told.told_step();
        }
    });
    sizes.assert_all(500);
}

/// One call of any kind; most can be taken.
fn one_call(random: &mut Random, loans: &mut Loans, layout: &Layout) {
    match random.number() % 18 {
        0..=4 => {
            loans.fill(random, |lent| &mut lent.bytes);
            loans.write(any_sector(random, layout));
        }
        5 | 6 => {
            loans.flush();
        }
        7 | 8 => {
            loans.step();
        }
        9 => {
            loans.told_step();
        }
        10..=12 => {
            loans.advance(any_steps(random));
        }
        13 | 14 => {
            loans.read(any_sector(random, layout));
        }
        15 | 16 => any_verify(random, loans, layout),
        _ => {
            loans.cut(random);
            loans.open(layout.reserved);
        }
    }
}

/// A volume is opened, if it can be, and worked by calls in a row.
#[test]
fn calls_in_a_row() {
    let mut sizes = TagSizes::new();
    cases(1_000, |random| {
        let layout = small_layout(random);
        sizes.add(&layout);
        let volume = with_journal(random, &layout);
        let mut loans = Loans::new(random, &volume, &[]);
        assert_eq!(loans.query(layout.reserved), DONE);
        let length = loans.answer()[0] as usize;
        loans.lend(|lent| &mut lent.staging, &Lent::new(random, length));
        loans.open(layout.reserved);
        for _ in 0..30 {
            one_call(random, &mut loans, &layout);
        }
    });
    sizes.assert_all(100);
}

/// Batches up to a full one, ids up to the last, and damaged bytes in the runs.
#[test]
fn filling_volumes() {
    cases(500, |random| {
        let layout = small_layout(random);
        let geometry = geometry(&layout);
        let mut volume = formatted(&layout, 0);
        for _ in 0..random.length(0..=8) {
            let place = random.length(geometry.base * 512..=volume.len() - 1);
            volume[place] ^= 1 << random.length(0..=7);
        }
        let staging = any_section(random, &layout, &geometry, 0);
        let mut loans = Loans::new(random, &volume, &staging);
        let full = geometry.entries as u64;
        loans.put_state(&State {
            layout,
            phase: Phase::Filling,
            count: random.pick(&[0, 1, full - 1, full]),
            id: random.pick(&[1, u64::MAX - 1, u64::MAX]),
        });
        for _ in 0..3 {
            loans.read(random.number() % layout.provided);
            loans.write(any_sector(random, &layout));
            any_verify(random, &mut loans, &layout);
        }
        loans.verify(0, layout.provided);
        loans.flush();
        loans.read(random.number() % layout.provided);
        loans.advance(u64::MAX);
    });
}

/// The key that tags were made with, another, one that no call takes, or none.
fn any_key_lent(random: &mut Random, loans: &mut Loans, key: &[u8]) {
    let key = match random.number() % 8 {
        0 => Some(other_key(random, key)),
        1 => Some(vec![5; wrong_key_length(random)]),
        2 => None,
        _ => Some(key.to_vec()),
    };
    loans.put_key(random, key.as_deref());
}

/// Puts the tags that a key gives in the place of those that fit without one.
fn rekey(loans: &mut Loans, layout: &Layout, key: &[u8]) {
    let mut volume = loans.lent().volume.bytes().to_vec();
    retag(&mut volume, layout, TagRule::Hmac(key));
    loans.put(|lent| &mut lent.volume, 0, &volume);
}

#[test]
fn any_call_with_a_key() {
    cases(5_000, |random| {
        let layout = any_layout(random);
        let mut loans = any_loans(random, &layout);
        let key = any_key(random);
        if layout.provided < 100 {
            rekey(&mut loans, &layout, &key);
        }
        any_key_lent(random, &mut loans, &key);
        loans.clone().format(&layout);
        let reserved = any_reserved(random, &layout);
        loans.clone().open(reserved);
        let sector = any_sector(random, &layout);
        loans.clone().write(sector);
        loans.clone().read(sector);
        any_verify(random, &mut loans, &layout);
    });
}

/// The key is another now and then.
#[test]
fn calls_in_a_row_with_a_key() {
    cases(500, |random| {
        let layout = small_layout(random);
        let volume = with_journal(random, &layout);
        let staging = random.bytes(geometry(&layout).staging_length());
        let mut loans = Loans::new(random, &volume, &staging);
        let key = any_key(random);
        rekey(&mut loans, &layout, &key);
        loans.put_key(random, Some(&key));
        loans.open(layout.reserved);
        for _ in 0..30 {
            any_key_lent(random, &mut loans, &key);
            one_call(random, &mut loans, &layout);
        }
    });
}
