//! Document 01's examples, and document 02's for order 4.

use crate::calls;
use crate::world::World;
use random::cases;
use reference::volume::{check, Checked, Flushed, Home, Layout, Refusal, Said};
use reference::volume::{TagRule, VOLUME_LIMIT};
use volumes::{formatted, geometry, section, Entry};

/// r 0, T 32, N 16, S 1, P 16.
const BENCH: Layout = Layout {
    reserved: 0,
    log2_run: 4,
    tag_size: 32,
    sections: 1,
    provided: 16,
};

#[test]
fn sections() {
    for (tag_size, entry_size, entries_per_sector, entries, section_sectors) in [
        (8, 24, 20, 160, 168),
        (16, 32, 15, 120, 128),
        (32, 48, 10, 80, 88),
        (20, 40, 12, 96, 104),
    ] {
        let geometry = geometry(&Layout { tag_size, ..BENCH });
        assert_eq!(geometry.entry_size, entry_size);
        assert_eq!(geometry.entries_per_sector, entries_per_sector);
        assert_eq!(geometry.entries, entries);
        assert_eq!(geometry.section_sectors, section_sectors);
        assert_eq!(geometry.staging_length(), section_sectors * 512);
    }
}

/// Only the entry is rounded up: sizes 1 to 8, 9 to 16, 17 to 24 and 25 to 32 have the same sections.
#[test]
fn entry_sizes() {
    for (tag_sizes, entry_size, section_sectors) in [
        (1..=8, 24, 168),
        (9..=16, 32, 128),
        (17..=24, 40, 104),
        (25..=32, 48, 88),
    ] {
        for tag_size in tag_sizes {
            let geometry = geometry(&Layout { tag_size, ..BENCH });
            assert_eq!(geometry.entry_size, entry_size);
            assert_eq!(geometry.section_sectors, section_sectors);
        }
    }
}

/// T 30, N 32, S 1, P 24: the tag of sector 17 is at the bytes 510 to 539 of the tag area. T 20, N 8, S 1, P 8 has no such tag.
#[test]
fn tags_across_sectors() {
    let crossing = Layout {
        log2_run: 5,
        tag_size: 30,
        provided: 24,
        ..BENCH
    };
    let geometry = volumes::geometry(&crossing);
    assert_eq!((geometry.sectors, geometry.tag_area), (128, 8));
    let area = geometry.base * 512;
    assert_eq!(geometry.home(17).map(|home| home.tag), Some(area + 510));
    for sector in (0..64).chain([u64::MAX - 32, u64::MAX - 14, u64::MAX - 1, u64::MAX]) {
        let stores = if sector % 32 == 17 { 3 } else { 2 };
        assert_eq!(geometry.stores(sector), stores, "{sector}");
    }
    let tag_20 = Layout {
        log2_run: 3,
        tag_size: 20,
        provided: 8,
        ..BENCH
    };
    let geometry = volumes::geometry(&tag_20);
    assert_eq!(geometry.sectors, 128);
    assert!((0..100).all(|sector| geometry.stores(sector) == 2));
}

/// Of any size and run length, the numbers that have three stores are those whose tags have bytes in two sectors.
#[test]
fn stores_of_each_tag_size() {
    for tag_size in 1..=32 {
        for log2_run in 3..=15 {
            let layout = Layout {
                log2_run,
                tag_size,
                ..BENCH
            };
            let geometry = geometry(&layout);
            for sector in (0..2 * geometry.run as u64).chain(u64::MAX - 100..=u64::MAX) {
                let expected = volumes::stores_of(&geometry, sector);
                assert_eq!(geometry.stores(sector), expected);
            }
            // The last tag of a run never goes on behind the sector that it begins in.
            assert_eq!(geometry.stores(u64::MAX), 2);
        }
    }
}

#[test]
fn tag_areas() {
    for (log2_run, tag_area) in [(7, 8), (8, 16)] {
        assert_eq!(geometry(&Layout { log2_run, ..BENCH }).tag_area, tag_area);
    }
}

#[test]
fn sizes() {
    let p20 = Layout {
        provided: 20,
        ..BENCH
    };
    for (layout, sectors) in [(BENCH, 120), (p20, 132)] {
        assert_eq!(geometry(&layout).sectors, sectors);
        let mut short = vec![0; (sectors - 1) * 512];
        let needed = sectors as u64;
        let refusal = Refusal::VolumeTooShort { needed };
        assert_eq!(calls::format(&mut short, &layout), Err(refusal));
        assert_eq!((refusal.number(), refusal.values()), (5, vec![needed]));
        assert_eq!(calls::format(&mut vec![0; sectors * 512], &layout), Ok(()));
    }
}

#[test]
fn places() {
    let home = Home {
        data: 109,
        tag: 49_312,
    };
    assert_eq!(geometry(&BENCH).home(5), Some(home));
    assert_eq!(geometry(&BENCH).home(16), None);
    let home = Home {
        data: 129,
        tag: 61_472,
    };
    let p20 = Layout {
        provided: 20,
        ..BENCH
    };
    assert_eq!(geometry(&p20).home(17), Some(home));
}

#[test]
fn ids_go_round() {
    let geometry = geometry(&Layout {
        sections: 3,
        ..BENCH
    });
    assert_eq!([1, 3, 4].map(|id| geometry.section_of(id)), [0, 2, 0]);
}

/// The superblock, byte for byte.
#[test]
fn superblock() {
    let layout = Layout {
        reserved: 2,
        log2_run: 5,
        tag_size: 16,
        sections: 3,
        provided: 0x123,
    };
    let mut expected = vec![0; 8 * 512];
    expected[..8].copy_from_slice(b"integrt\0");
    expected[8] = 128;
    expected[9] = 5;
    expected[10] = 16;
    expected[12] = 3;
    expected[16] = 0x23;
    expected[17] = 1;
    assert_eq!(formatted(&layout, 0)[2 * 512..10 * 512], expected);
}

#[test]
fn sector_16_is_refused() {
    cases(1, |random| {
        let mut world = World::new(BENCH, 0);
        world.open(random);
        assert_eq!(world.write(16, &[1; 512]), Err(Refusal::Sector));
        world.read(16);
        assert_eq!(Refusal::Sector.number(), 6);
        assert_eq!(Refusal::Sector.values(), []);
    });
}

#[test]
fn the_81st_write_is_refused() {
    cases(1, |random| {
        let mut world = World::new(BENCH, 0);
        world.open(random);
        for i in 0..80 {
            assert_eq!(world.write(i % 16, &[i as u8; 512]), Ok(()));
        }
        assert_eq!(world.write(0, &[80; 512]), Err(Refusal::BatchFull));
        assert_eq!(Refusal::BatchFull.number(), 8);
        assert_eq!(world.write(16, &[80; 512]), Err(Refusal::Sector));
        world.flush().unwrap();
        assert_eq!(world.step_to_filling().len(), 88 + 160);
    });
}

#[test]
fn one_write() {
    cases(1, |random| {
        let mut world = World::new(BENCH, 0);
        world.open(random);
        let mut entry = Entry::new(5, 0);
        random.fill(&mut entry.data);
        world.write(5, &entry.data).unwrap();
        assert_eq!(world.flush(), Ok(Flushed::Committing));
        for store in 1..=90 {
            let stepped = world.step();
            let (sector, said) = match store {
                1..=87 => (7 + store, Said::Nothing),
                88 => (95, Said::Acknowledged),
                89 => (109, Said::Nothing),
                _ => (96, Said::Filling),
            };
            assert_eq!((stepped.stored, stepped.said), (Some(sector), said));
        }
        let committed = section(&world.geometry, 1, &[entry]);
        assert!(world.volume[8 * 512..96 * 512] == committed);
        let idle = world.step();
        assert_eq!((idle.stored, idle.said), (None, Said::Filling));
    });
}

#[test]
fn cut_after_each_store_of_one_write() {
    cases(1, |random| {
        for stores in 0..=90 {
            let mut world = World::new(BENCH, 0);
            world.open(random);
            world.write(5, &[7; 512]).unwrap();
            world.flush().unwrap();
            for _ in 0..stores {
                world.step();
            }
            world.cut();
            world.open_and_recover(random);
            let kept = [if stores < 88 { 0 } else { 7 }; 512];
            assert_eq!(world.ledger.contents[5], kept);
        }
    });
}

#[test]
fn same_sector_twice() {
    cases(1, |random| {
        let mut world = World::new(BENCH, 0);
        world.open(random);
        world.write(5, &[1; 512]).unwrap();
        world.write(5, &[2; 512]).unwrap();
        world.flush().unwrap();
        assert_eq!(world.step_to_filling().len(), 92);
        assert_eq!(world.ledger.contents[5], [2; 512]);
    });
}

#[test]
fn flush_of_an_empty_batch() {
    cases(1, |random| {
        let mut world = World::new(BENCH, 0);
        world.open(random);
        assert_eq!(world.flush(), Ok(Flushed::Acknowledged));
        assert_eq!(world.step_to_filling(), []);
    });
}

/// The image of the bench program's example, fresh and with broken sectors.
#[test]
fn check_of_a_fresh_image() {
    let mut image = formatted(&BENCH, 0);
    let expected = |bad| Checked {
        layout: BENCH,
        stores: 0,
        bad,
    };
    assert_eq!(check(&image, 0, TagRule::Digest), Ok(expected(vec![])));
    image[109 * 512] ^= 1;
    image[96 * 512 + 3 * 32] ^= 1;
    assert_eq!(check(&image, 0, TagRule::Digest), Ok(expected(vec![3, 5])));
}

/// Each parameter's range, and the limit of a volume.
#[test]
fn ranges() {
    let in_range = |layout: Layout| {
        let refused = calls::format(&mut [], &layout) == Err(Refusal::Parameter);
        assert_eq!(refused, !layout.in_range());
        !refused
    };
    let each = |values: &[u64], range: &[u64], with: &dyn Fn(u64) -> Layout| {
        for value in values {
            assert_eq!(in_range(with(*value)), range.contains(value), "{value}");
        }
    };
    let wide = 1 << 32;
    each(&[0, 64, 65, wide], &[0, 64], &|reserved| Layout {
        reserved,
        ..BENCH
    });
    let logarithms = [0, 2, 3, 15, 16, 64, 256 + 4, wide + 4, u64::MAX];
    each(&logarithms, &[3, 15], &|log2_run| Layout {
        log2_run,
        ..BENCH
    });
    let tags: Vec<u64> = (0..=70)
        .chain([256 + 20, 65_536 + 8, wide + 16, u64::MAX])
        .collect();
    let taken: Vec<u64> = (1..=32).collect();
    each(&tags, &taken, &|tag_size| Layout { tag_size, ..BENCH });
    let sections = [0, 1, 64, 65, wide + 1, u64::MAX];
    each(&sections, &[1, 64], &|sections| Layout {
        sections,
        ..BENCH
    });
    let provided = [0, 1, 65_536, 65_537, wide + 1, u64::MAX];
    each(&provided, &[1, 65_536], &|provided| Layout {
        provided,
        ..BENCH
    });
}

/// A layout longer than any volume is refused with its length, at format and open.
#[test]
fn layout_above_the_limit() {
    let layout = Layout {
        provided: 65_536,
        ..BENCH
    };
    let needed = geometry(&layout).sectors as u64;
    assert_eq!(needed, 96 + 4096 * 8 + 65_536);
    let refused = Refusal::VolumeTooShort { needed };
    let mut volume = vec![0; VOLUME_LIMIT * 512];
    assert_eq!(calls::format(&mut volume, &layout), Err(refused));
    calls::format(&mut volume, &BENCH).unwrap();
    volume[16..24].copy_from_slice(&65_536_u64.to_le_bytes());
    assert_eq!(calls::open(&volume, 0, &mut []), Err(refused));
}

/// The greatest volume that there can be is formatted, opened and checked.
#[test]
fn greatest_volume() {
    let layout = Layout {
        reserved: 64,
        log2_run: 15,
        tag_size: 8,
        sections: 64,
        provided: 53_688,
    };
    let sectors = geometry(&layout).sectors;
    assert_eq!(sectors, VOLUME_LIMIT);
    let mut volume = vec![0; VOLUME_LIMIT * 512];
    assert_eq!(calls::format(&mut volume, &layout), Ok(()));
    let checked = check(&volume, 64, TagRule::Digest).unwrap();
    assert_eq!((checked.stores, checked.bad), (0, vec![]));
}
