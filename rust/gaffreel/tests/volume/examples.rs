//! Document 01's examples, and document 02's for order 4, by the safe wrapper alone.

use gaffreel::volume::{advance, flush, format, open, query, read, step, write};
use gaffreel::volume::{Advanced, Flushed, Layout, Phase, Said, State, Stepped};
use gaffreel::Refusal;

/// r 0, T 32, N 16, S 1, P 16.
const BENCH: Layout = Layout {
    reserved: 0,
    log2_run: 4,
    tag_size: 32,
    sections: 1,
    provided: 16,
};

/// r 0, T 20, N 8, S 1, P 8.
const TAG_20: Layout = Layout {
    log2_run: 3,
    tag_size: 20,
    provided: 8,
    ..BENCH
};

/// r 0, T 30, N 32, S 1, P 24: the tag of sector 17 is at the bytes 510 to 539 of the tag area.
const ACROSS_SECTORS: Layout = Layout {
    log2_run: 5,
    tag_size: 30,
    provided: 24,
    ..BENCH
};

/// A volume with its staging, open.
struct World {
    volume: Vec<u8>,
    staging: Vec<u8>,
    state: State,
}

impl World {
    /// The bench volume.
    fn new() -> World {
        World::of(&BENCH, 120)
    }

    /// A volume of this layout, which has so many sectors.
    fn of(layout: &Layout, sectors: usize) -> World {
        let mut volume = vec![0; sectors * 512];
        format(&mut volume, layout).unwrap();
        let world = World::open(volume).0;
        assert_eq!(world.state.layout, *layout);
        world
    }

    /// The volume opened, and how many stores are to come.
    fn open(volume: Vec<u8>) -> (World, u64) {
        let queried = query(&volume, 0).unwrap();
        let mut staging = vec![7; queried.staging_length];
        let opened = open(&volume, 0, &mut staging).unwrap();
        let world = World {
            volume,
            staging,
            state: opened.state,
        };
        (world, opened.stores_to_come)
    }

    fn write(&mut self, sector: u64, fill: u8) -> Result<(), Refusal> {
        write(&mut self.state, &mut self.staging, sector, &[fill; 512])
    }

    fn step(&mut self) -> Stepped {
        step(&mut self.state, &mut self.volume, &mut self.staging).unwrap()
    }

    fn advance(&mut self, steps: u64) -> Advanced {
        advance(&mut self.state, &mut self.volume, &mut self.staging, steps).unwrap()
    }

    /// The first byte of a sector.
    fn read(&self, sector: u64) -> u8 {
        let mut out = [0; 512];
        read(&self.state, &self.volume, &self.staging, sector, &mut out).unwrap();
        out[0]
    }
}

#[test]
fn sizes() {
    assert_eq!(format(&mut vec![0; 120 * 512], &BENCH), Ok(()));
    let refused = Refusal::VolumeTooShort { needed: 120 };
    assert_eq!(format(&mut vec![0; 119 * 512], &BENCH), Err(refused));
    let layout = Layout {
        provided: 20,
        ..BENCH
    };
    assert_eq!(format(&mut vec![0; 132 * 512], &layout), Ok(()));
}

#[test]
fn one_write() {
    let mut world = World::new();
    assert_eq!(world.write(16, 1), Err(Refusal::Sector));
    world.write(5, 1).unwrap();
    assert_eq!(world.read(5), 1);
    assert_eq!(flush(&mut world.state), Ok(Flushed::Committing));
    for store in 1..=90 {
        let (sector, said) = match store {
            1..=87 => (7 + store, Said::Nothing),
            88 => (95, Said::Acknowledged),
            89 => (109, Said::Nothing),
            _ => (96, Said::Filling),
        };
        let stored = Some(sector);
        assert_eq!(world.step(), Stepped { stored, said });
    }
    assert_eq!(world.state.phase, Phase::Filling);
    assert_eq!(world.volume[109 * 512..110 * 512], [1; 512]);
    assert_eq!(world.read(5), 1);
}

#[test]
fn the_81st_write_is_refused() {
    let mut world = World::new();
    for i in 0..80 {
        world.write(i % 16, i as u8).unwrap();
    }
    assert_eq!(world.write(0, 80), Err(Refusal::BatchFull));
    assert_eq!(world.write(16, 80), Err(Refusal::Sector));
}

#[test]
fn a_cut_after_each_store() {
    for stores in 0..=90 {
        let mut world = World::new();
        world.write(5, 1).unwrap();
        flush(&mut world.state).unwrap();
        assert_eq!(world.advance(stores).done, stores);
        let (mut world, to_come) = World::open(world.volume);
        assert_eq!(to_come, if stores < 88 { 0 } else { 2 });
        let advanced = world.advance(u64::MAX);
        assert_eq!((advanced.done, advanced.acknowledged), (to_come, false));
        assert_eq!(world.read(5), if stores < 88 { 0 } else { 1 });
    }
}

#[test]
fn the_same_sector_twice() {
    let mut world = World::new();
    world.write(5, 1).unwrap();
    world.write(5, 2).unwrap();
    assert_eq!(world.read(5), 2);
    flush(&mut world.state).unwrap();
    let advanced = Advanced {
        last: Stepped {
            stored: Some(96),
            said: Said::Filling,
        },
        done: 92,
        acknowledged: true,
    };
    assert_eq!(world.advance(92), advanced);
    assert_eq!(world.read(5), 2);
    assert_eq!(flush(&mut world.state), Ok(Flushed::Acknowledged));
    let idle = Advanced {
        last: Stepped {
            stored: None,
            said: Said::Filling,
        },
        done: 0,
        acknowledged: false,
    };
    assert_eq!(world.advance(1), idle);
}

/// E is 96 and M 104; the volume has 128 sectors.
#[test]
fn tags_of_20_bytes() {
    let needed = 128;
    let refused = Refusal::VolumeTooShort { needed };
    assert_eq!(format(&mut vec![0; 127 * 512], &TAG_20), Err(refused));
    let mut world = World::of(&TAG_20, 128);
    assert_eq!(world.staging.len(), 104 * 512);
    world.write(7, 1).unwrap();
    flush(&mut world.state).unwrap();
    let advanced = world.advance(u64::MAX);
    assert_eq!((advanced.done, advanced.acknowledged), (106, true));
    for i in 0..96 {
        world.write(i % 8, i as u8).unwrap();
    }
    assert_eq!(world.write(0, 1), Err(Refusal::BatchFull));
}

/// Stores to 8 to 95; of sectors 16 to 18, which lie at 120 to 122, the data and then the tags, of which the second has two stores.
const WRITTEN_BACK: [u64; 7] = [120, 96, 121, 96, 97, 122, 97];

#[test]
fn a_tag_across_two_sectors() {
    let mut world = World::of(&ACROSS_SECTORS, 128);
    for sector in 16..=18 {
        world.write(sector, sector as u8).unwrap();
    }
    flush(&mut world.state).unwrap();
    assert_eq!(world.advance(87).done, 87);
    let stored = Some(95);
    let said = Said::Acknowledged;
    assert_eq!(world.step(), Stepped { stored, said });
    for (place, sector) in (1..).zip(WRITTEN_BACK) {
        let stored = Some(sector);
        let said = match place {
            7 => Said::Filling,
            _ => Said::Nothing,
        };
        assert_eq!(world.step(), Stepped { stored, said });
        if place == 4 {
            let (entry, store) = (1, 2);
            assert_eq!(world.state.phase, Phase::WritingBack { entry, store });
        }
    }
    for sector in 16..=18 {
        assert_eq!(world.read(sector), sector as u8);
    }
}

#[test]
fn a_cut_after_each_store_of_a_tag_across_two_sectors() {
    for stores in 0..=95 {
        let mut world = World::of(&ACROSS_SECTORS, 128);
        for sector in 16..=18 {
            world.write(sector, sector as u8).unwrap();
        }
        flush(&mut world.state).unwrap();
        assert_eq!(world.advance(stores).done, stores);
        let (mut world, to_come) = World::open(world.volume);
        assert_eq!(to_come, if stores < 88 { 0 } else { 7 });
        assert_eq!(world.advance(u64::MAX).done, to_come);
        for sector in 0..24 {
            let kept = stores >= 88 && (16..=18).contains(&sector);
            assert_eq!(world.read(sector), if kept { sector as u8 } else { 0 });
        }
    }
}
