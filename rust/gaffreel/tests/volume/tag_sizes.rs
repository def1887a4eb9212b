//! Each tag size: sections and batches of it, a batch that is cut where it is written back and where it is recovered, and what stands
//! behind a tag in an entry.

use crate::by_reference::{numbers_in, PHASE, SECOND, WRITING_BACK};
use crate::loans::{Loans, DONE};
use random::{cases, Random};
use reference::volume::{Layout, Phase, State};
use volumes::any::fill_padding;
use volumes::{crosses, empty_staging, formatted, geometry, padding_place};
use volumes::{put_section, section, stores_of, Entry};

const BATCH_FULL: u32 = 8;

/// The most sectors that the volumes here provide.
const MOST: u64 = 180;

/// Tags of so many bytes in runs of 512 sectors. Where one lies across the first two sectors of the tag area, it is that of
/// sector 512 / T, and this sector is provided.
fn layout(tag_size: u64) -> Layout {
    Layout {
        reserved: 1,
        log2_run: 9,
        tag_size,
        sections: 1,
        provided: (512 / tag_size + 4).min(MOST),
    }
}

/// The entries of a batch, and the sectors of a section: E and M of the papers.
fn entries_and_sectors(tag_size: u64) -> (u64, u64) {
    match tag_size {
        1..=8 => (160, 168),
        9..=16 => (120, 128),
        17..=24 => (96, 104),
        _ => (80, 88),
    }
}

fn opened(random: &mut Random, layout: &Layout) -> Loans {
    let staging = random.bytes(geometry(layout).staging_length());
    let mut loans = Loans::new(random, &formatted(layout, 0), &staging);
    assert_eq!(loans.open(layout.reserved), DONE);
    loans
}

#[test]
fn sections_and_batches() {
    cases(1, |random| {
        for tag_size in 1..=32 {
            let (entries, sectors) = entries_and_sectors(tag_size);
            let layout = Layout {
                log2_run: 3,
                provided: 3,
                ..layout(tag_size)
            };
            let mut loans = opened(random, &layout);
            assert_eq!(loans.query(layout.reserved), DONE);
            assert_eq!(loans.answer()[0], sectors * 512);
            for entry in 0..entries {
                loans.fill(random, |lent| &mut lent.bytes);
                assert_eq!(loans.write(entry % 3), DONE);
            }
            assert_eq!(loans.write(0), BATCH_FULL);
            assert_eq!(loans.flush(), DONE);
            assert_eq!(loans.advance(u64::MAX), DONE);
            assert_eq!(loans.answer()[3], sectors + 2 * entries);
        }
    });
}

/// Sectors around the one whose tag lies across two, if there is one, and the last.
fn written(layout: &Layout) -> Vec<u64> {
    let middle = (512 / layout.tag_size).min(MOST - 4);
    vec![middle - 1, middle, middle + 1, layout.provided - 1, middle]
}

/// A cut here, and a recovery from it that is itself cut before each of its stores.
fn cut_and_recovered(random: &mut Random, loans: &Loans, layout: &Layout, stores: u64) {
    let mut loans = loans.clone();
    for store in 0..=stores {
        loans.cut(random);
        assert_eq!(loans.open(layout.reserved), DONE);
        assert_eq!(loans.answer()[0], stores);
        assert_eq!(loans.advance(store), DONE);
    }
    assert_eq!(loans.verify(0, layout.provided), DONE);
    for sector in written(layout) {
        assert_eq!(loans.read(sector), DONE);
        assert_eq!(loans.lent().bytes.bytes()[1..], [sector as u8; 511]);
    }
}

#[test]
fn written_back_and_recovered() {
    cases(1, |random| {
        for tag_size in 1..=32 {
            let layout = layout(tag_size);
            let geometry = geometry(&layout);
            let mut loans = opened(random, &layout);
            let written = written(&layout);
            let across = written.iter().any(|sector| crosses(&geometry, *sector));
            // 512 is a multiple of the others.
            assert_eq!(across, !tag_size.is_power_of_two());
            for (place, sector) in (0..).zip(&written) {
                let mut bytes = [*sector as u8; 512];
                bytes[0] = place;
                loans.put(|lent| &mut lent.bytes, 0, &bytes);
                assert_eq!(loans.write(*sector), DONE);
            }
            assert_eq!(loans.flush(), DONE);
            let (_, commit) = entries_and_sectors(tag_size);
            assert_eq!(loans.advance(commit), DONE);
            let stores = written.iter().map(|sector| stores_of(&geometry, *sector));
            let total = stores.clone().sum();
            for (entry, stores) in (0..).zip(stores) {
                for store in 0..stores {
                    let state = numbers_in(loans.lent().state.bytes());
                    assert_eq!(state[PHASE..=SECOND], [WRITING_BACK, entry, store]);
                    cut_and_recovered(random, &loans, &layout, total);
                    assert_eq!(loans.step(), DONE);
                }
            }
            // Idle, and filling.
            assert_eq!(loans.step(), DONE);
            assert_eq!(loans.answer()[..3], [0, 0, 2]);
            cut_and_recovered(random, &loans, &layout, total);
        }
    });
}

/// A write stores zeros behind its tag, whatever staging held there.
#[test]
fn zeros_behind_a_tag() {
    cases(10, |random| {
        for tag_size in 1..=32 {
            let layout = layout(tag_size);
            let geometry = geometry(&layout);
            let entry = random.length(0..=geometry.entries - 1);
            let padding = padding_place(&geometry, entry);
            assert_eq!(
                padding.len() as u64,
                tag_size.next_multiple_of(8) - tag_size
            );
            let mut staging = random.bytes(geometry.staging_length());
            staging[padding.clone()].fill(0xff);
            let mut loans = Loans::new(random, &formatted(&layout, 0), &staging);
            loans.put_state(&State {
                layout,
                phase: Phase::Filling,
                count: entry as u64,
                id: 1,
            });
            assert_eq!(loans.write(0), DONE);
            let written = &loans.lent().staging.bytes()[padding];
            assert!(written.iter().all(|byte| *byte == 0));
        }
    });
}

/// Open ignores what stands behind the tags of a section, and a recovery stores nothing of it.
#[test]
fn bytes_behind_a_tag_in_the_journal() {
    cases(10, |random| {
        for tag_size in 1..=32 {
            let layout = layout(tag_size);
            let geometry = geometry(&layout);
            let written = written(&layout);
            let entries: Vec<Entry> = written.iter().map(|s| Entry::new(*s, 7)).collect();
            let mut bytes = section(&geometry, 1, &entries);
            let mut volume = formatted(&layout, 0);
            put_section(&mut volume, &geometry, 0, &bytes);
            let staging = empty_staging(&geometry);
            let mut without = Loans::new(random, &volume, &staging);
            fill_padding(random, &geometry, &mut bytes);
            put_section(&mut volume, &geometry, 0, &bytes);
            let mut with = Loans::new(random, &volume, &staging);
            let runs = geometry.base * 512;
            for loans in [&mut without, &mut with] {
                assert_eq!(loans.open(layout.reserved), DONE);
                assert_eq!(loans.advance(u64::MAX), DONE);
            }
            let [without, with] = [&without, &with].map(|loans| loans.lent().volume.bytes());
            assert!(without[runs..] == with[runs..]);
        }
    });
}
