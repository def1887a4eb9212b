//! What the calls do where document 01 can be misread.

use crate::calls;
use crate::setting::{filling, filling_with, in_phase, recovering, with_sections, LAYOUT, STAGING};
use reference::volume::{Geometry, Layout, Phase, State};
use volumes::{empty_staging, formatted, geometry, padding_place, put_id, Entry};

/// A torn section is not replayed, whatever its entries and ids are; a whole one without a used entry neither.
#[test]
fn open_of_torn_sections() {
    let geometry = geometry(&LAYOUT);
    let bad = Entry::new(10, 1).with_wrong_tag();
    for (sector, id) in [(0, 0), (87, 0), (87, 2), (0, 5), (40, 4)] {
        let mut volume = with_sections(&[(0, 3, &[bad]), (1, 2, &[])]);
        put_id(&mut volume, &geometry, 0, sector, id);
        let opened = calls::open(&volume, 2, &mut vec![0; STAGING]).unwrap();
        assert_eq!(opened.stores_to_come, 0);
        assert_eq!(opened.state.phase, Phase::Filling);
        assert_eq!(opened.state.id, id.max(3) + 1);
    }
}

/// What open refuses in a journal, a recovery replays: misplaced sections, ids of 2^64 - 1, equal ids by section.
#[test]
fn step_replays_what_it_is_given() {
    let geometry = geometry(&LAYOUT);
    for (first, second, newest) in [(1, 1, 22), (2, 1, 11), (u64::MAX, 3, 11), (1, 2, 22)] {
        let old = [Entry::new(3, 11)];
        let new = [Entry::new(3, 22).with_wrong_tag()];
        let mut volume = with_sections(&[(0, first, &old), (1, second, &new)]);
        let mut staging = empty_staging(&geometry);
        let mut state = recovering(0);
        for _ in 0..4 {
            calls::step(&mut state, &mut volume, &mut staging).unwrap();
        }
        assert_eq!(state.phase, Phase::Filling);
        let home = geometry.home(3).unwrap();
        assert_eq!(volume[home.data * 512], newest);
    }
}

/// Read takes the newest entry below the count, its tag untested, in each phase but recovering.
#[test]
fn read_of_the_batch() {
    let entries = [Entry::new(5, 1), Entry::new(5, 2), Entry::new(5, 3)];
    let entries = entries.map(Entry::with_wrong_tag);
    let volume = formatted(&LAYOUT, 0);
    let staging = volumes::section(&geometry(&LAYOUT), 9, &entries);
    for phase in [
        Phase::Filling,
        Phase::Committing { sector: 87 },
        Phase::WritingBack { entry: 0, store: 1 },
    ] {
        for count in 1..=3 {
            let mut out = [9; 512];
            let state = in_phase(phase, count);
            let answer = calls::read(&state, &volume, &staging, 5, &mut out);
            assert_eq!((answer, out), (Ok(()), [count as u8; 512]));
        }
    }
    let mut out = [9; 512];
    let answer = calls::read(&filling(), &volume, &staging, 5, &mut out);
    assert_eq!((answer, out), (Ok(()), [0; 512]));
}

/// Write changes its entry, zeros behind the tag included, and the entry's data, whatever stands there, and nothing else.
#[test]
fn write_changes_one_entry() {
    for tag_size in [1, 8, 20, 30, 32] {
        let layout = Layout { tag_size, ..LAYOUT };
        let geometry = geometry(&layout);
        for count in 0..geometry.entries {
            let mut entries = vec![Entry::new(5, 1).with_wrong_tag(); geometry.entries];
            let mut staging = with_padding(&geometry, &entries);
            let mut state = State {
                layout,
                ..filling_with(count as u64)
            };
            calls::write(&mut state, &mut staging, 7, &[3; 512]).unwrap();
            entries[count] = Entry::new(7, 3);
            let mut expected = with_padding(&geometry, &entries);
            expected[padding_place(&geometry, count)].fill(0);
            assert!(staging == expected);
        }
    }
}

/// A section whose bytes behind the tags are not zero.
fn with_padding(geometry: &Geometry, entries: &[Entry]) -> Vec<u8> {
    let mut section = volumes::section(geometry, 9, entries);
    for entry in 0..geometry.entries {
        section[padding_place(geometry, entry)].fill(0xff);
    }
    section
}
