//! Random histories of calls and cuts against the ledger.

use crate::world::{InATag, World};
use random::{cases, Random, Reached};
use reference::volume::ledger::Ledger;
use reference::volume::{Layout, Phase};
use volumes::any::{any_sector, small_layout, with_tag_across_sectors};
use volumes::keyed::{any_key, wrong_key_length};
use volumes::tag_sizes::TagSizes;

/// Few sectors of a volume, so that the same one is often written twice.
fn sector(random: &mut Random, layout: &Layout) -> u64 {
    match random.number() % 3 {
        0 => random.number() % layout.provided.min(4),
        _ => any_sector(random, layout),
    }
}

fn writes(world: &mut World, random: &mut Random) {
    let entries = world.geometry.entries;
    let count = match random.number() % 12 {
        0 => random.length(0..=entries + 1),
        _ => random.length(1..=4),
    };
    for _ in 0..count {
        let sector = sector(random, &world.layout);
        // A refused write is recorded too.
        let _ = world.write(sector, &random.bytes(512));
    }
}

/// Calls that a rule refuses.
fn refused_writes(world: &mut World, random: &mut Random) {
    let beyond = world.layout.provided + random.pick(&[0, 1, 1 << 32]);
    assert!(world.write(beyond, &random.bytes(512)).is_err());
    assert!(world.write(u64::MAX, &random.bytes(512)).is_err());
    let length = random.pick(&[0, 511, 513, 1024]);
    assert!(world.write(0, &random.bytes(length)).is_err());
    for length in [512, length] {
        let sector = sector(random, &world.layout);
        let key_length = wrong_key_length(random);
        world.calls_with_a_refused_key(sector, &random.bytes(length), key_length);
    }
}

fn steps(world: &mut World, random: &mut Random) {
    let count = match random.number() % 4 {
        0 => random.length(1..=4),
        1 => random.length(1..=world.geometry.section_sectors),
        2 => world.geometry.section_sectors + random.length(0..=6),
        _ => {
            world.step_to_filling();
            return;
        }
    };
    for _ in 0..count {
        world.step();
        // Idle steps are few.
        if world.phase() == Some(Phase::Filling) && !random.number().is_multiple_of(4) {
            return;
        }
        let in_a_tag = matches!(world.phase(), Some(Phase::WritingBack { store: 2, .. }));
        if in_a_tag && random.number().is_multiple_of(2) {
            return;
        }
    }
}

fn reads(world: &mut World, random: &mut Random) {
    for _ in 0..4 {
        let sector = sector(random, &world.layout);
        world.read(sector);
    }
    world.read(world.layout.provided);
    world.verify();
}

/// A cut, counted where it leaves a tag stored in part.
fn cut(world: &mut World, reached: &mut Reached<InATag>) {
    if let Some(kind) = world.in_a_tag() {
        reached.add(kind);
    }
    world.cut();
}

/// A cut, and cuts in the recoveries after it.
fn cuts(world: &mut World, random: &mut Random, reached: &mut Reached<InATag>) {
    cut(world, reached);
    world.check_whole();
    while random.number().is_multiple_of(3) {
        world.open_with_wrong_staging(random);
        let length = wrong_key_length(random);
        world.open_with_a_refused_key(random, length);
    }
    while random.number().is_multiple_of(2) {
        let stores = world.open(random) as usize;
        for _ in 0..random.length(0..=stores) {
            world.step();
        }
        cut(world, reached);
    }
    world.open(random);
}

/// A key of any kind, or none.
type Key = fn(&mut Random) -> Option<Vec<u8>>;

const NONE: Key = |_| None;

const ANY: Key = |random| Some(any_key(random));

#[test]
fn random_histories() {
    histories(NONE);
}

#[test]
fn random_histories_under_a_key() {
    histories(ANY);
}

fn histories(key: Key) {
    let mut sizes = TagSizes::new();
    let mut reached = Reached::new();
    cases(400, |random| {
        let layout = small_layout(random);
        sizes.add(&layout);
        let behind = random.length(0..=2);
        let mut world = World::under(key(random), layout, behind);
        world.open(random);
        for _ in 0..random.length(1..=60) {
            match random.number() % 16 {
                0..=4 => writes(&mut world, random),
                5..=7 => {
                    let _ = world.flush();
                }
                8..=12 => {
                    steps(&mut world, random);
                    if world.in_a_tag().is_some() {
                        cuts(&mut world, random, &mut reached);
                    }
                }
                13 => reads(&mut world, random),
                14 => refused_writes(&mut world, random),
                _ => cuts(&mut world, random, &mut reached),
            }
        }
        cuts(&mut world, random, &mut reached);
        assert_eq!(Ledger::of(&layout, &world.transcript), Some(world.ledger));
    });
    sizes.assert_all(20);
    reached.assert_each(5, [InATag::WritingBack, InATag::Recovering]);
}

/// Batches of a few entries, one after the other, with a cut somewhere in most: sections are used again and again, and
/// torn attempts lie beside whole ones.
fn short_batches(key: Key) {
    let mut reached = Reached::new();
    cases(60, |random| {
        let layout = small_layout(random);
        let layout = match random.number() % 2 {
            0 => with_tag_across_sectors(random, layout),
            _ => layout,
        };
        let mut world = World::under(key(random), layout, 0);
        world.open(random);
        for _ in 0..12 {
            if world.phase() != Some(Phase::Filling) {
                world.step_to_filling();
            }
            for _ in 0..random.length(1..=3) {
                let sector = sector(random, &layout);
                world.write(sector, &random.bytes(512)).unwrap();
            }
            world.flush().unwrap();
            // Often up to the write-back, which has at most nine stores.
            let commit = world.geometry.section_sectors;
            let least = random.pick(&[0, commit]);
            for _ in 0..random.length(least..=commit + 9) {
                world.step();
                if world.in_a_tag().is_some() && random.number().is_multiple_of(2) {
                    break;
                }
            }
            if !random.number().is_multiple_of(4) {
                cuts(&mut world, random, &mut reached);
            }
        }
    });
    reached.assert_each(5, [InATag::WritingBack, InATag::Recovering]);
}

#[test]
fn many_short_batches() {
    short_batches(NONE);
}

#[test]
fn many_short_batches_under_a_key() {
    short_batches(ANY);
}
