//! A cut after every store of short histories, and after every store of the recovery that follows.

use crate::world::{InATag, World};
use random::{cases, Random, Reached};
use reference::volume::{Layout, Said};
use volumes::keyed::any_key;

/// Batches of sectors, written and flushed one after the other.
type Batches<'a> = &'a [&'a [u64]];

const LAYOUT: Layout = Layout {
    reserved: 1,
    log2_run: 3,
    tag_size: 32,
    sections: 1,
    provided: 10,
};

/// With these the tag of sector 17 lies across two sectors.
const ACROSS_SECTORS: Layout = Layout {
    log2_run: 5,
    tag_size: 30,
    provided: 24,
    ..LAYOUT
};

const fn layout(tag_size: u64, sections: u64) -> Layout {
    Layout {
        tag_size,
        sections,
        ..LAYOUT
    }
}

/// Histories with their layouts.
const HISTORIES: [(Layout, Batches); 7] = [
    (layout(32, 1), &[&[0], &[1, 0]]),
    (layout(8, 1), &[&[3, 3], &[8]]),
    (layout(16, 2), &[&[0, 8], &[0], &[0, 1]]),
    (layout(32, 3), &[&[2], &[2], &[2, 2], &[2]]),
    (layout(20, 1), &[&[7, 0]]),
    (layout(1, 1), &[&[3], &[9]]),
    (ACROSS_SECTORS, &[&[16, 17, 18], &[17, 17]]),
];

/// Counts of the cuts that left a tag stored in part.
type Counts = Reached<InATag>;

/// Cuts a copy of the world here, recovers it, and goes on with one more batch.
fn cut_here(world: &World, random: &mut Random, reached: &mut Counts) {
    let mut world = cut(world, reached);
    world.check_whole();
    cut_each_recovery_store(&world, random, reached);
    world.open_and_recover(random);
    world.write(0, &random.bytes(512)).unwrap();
    world.flush().unwrap();
    world.step_to_filling();
    world.cut();
    world.open_and_recover(random);
}

/// A copy of the world, cut here.
fn cut(world: &World, reached: &mut Counts) -> World {
    if let Some(kind) = world.in_a_tag() {
        reached.add(kind);
    }
    let mut world = world.clone();
    world.cut();
    world
}

/// Cuts a recovery before each of its stores, and recovers again.
fn cut_each_recovery_store(world: &World, random: &mut Random, reached: &mut Counts) {
    let mut recovering = world.clone();
    let stores = recovering.open(random);
    for _ in 0..stores {
        let mut again = cut(&recovering, reached);
        assert_eq!(again.open(random), stores);
        again.step_to_filling();
        recovering.step();
    }
}

fn cut_after_each_store(
    mut world: World,
    batches: Batches,
    random: &mut Random,
    reached: &mut Counts,
) {
    world.open(random);
    for batch in batches {
        for sector in *batch {
            world.write(*sector, &random.bytes(512)).unwrap();
            cut_here(&world, random, reached);
        }
        world.flush().unwrap();
        while world.step().said != Said::Filling {
            cut_here(&world, random, reached);
        }
        cut_here(&world, random, reached);
    }
}

#[test]
fn cut_after_each_store_of_short_histories() {
    let mut reached = Reached::new();
    cases(1, |random| {
        for (layout, batches) in HISTORIES {
            cut_after_each_store(World::new(layout, 1), batches, random, &mut reached);
            let key = Some(any_key(random));
            let world = World::under(key, layout, 1);
            cut_after_each_store(world, batches, random, &mut reached);
        }
    });
    // Three tags by either rule, one of them in the first batch.
    reached.assert_each(6, [InATag::WritingBack]);
    reached.assert_each(20, [InATag::Recovering]);
}
