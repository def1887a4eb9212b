//! The order of refusals. A row meets the rule that it expects and the next rules too; the first one answers. That a
//! refusal changes nothing is checked by the calls.

use crate::calls;
use crate::setting::{committing, filling, filling_with, in_phase, recovering, writing_back};
use crate::setting::{with_sections, Sections, LAYOUT, SECTORS, STAGING};
use reference::volume::{Layout, Phase, Refusal, State, VOLUME_LIMIT};
use volumes::{formatted, geometry, put_id, Entry, UNUSED};

const LENGTH_OR_STATE: Refusal = Refusal::LengthOrState;

fn too_short(needed: u64) -> Refusal {
    Refusal::VolumeTooShort { needed }
}

fn bad_sector(section: u64, entry: u64) -> Refusal {
    Refusal::JournalSector { section, entry }
}

fn bad_tag(section: u64, entry: u64) -> Refusal {
    Refusal::JournalTag { section, entry }
}

#[test]
fn numbers_and_values() {
    let (needed, section, entry, sector) = (4, 5, 6, 7);
    for (refusal, number, values) in [
        (Refusal::LengthOrState, 1, vec![]),
        (Refusal::Parameter, 2, vec![]),
        (Refusal::SuperblockNotZero, 3, vec![]),
        (Refusal::SuperblockZero, 3, vec![]),
        (Refusal::SuperblockNotValid, 4, vec![]),
        (Refusal::VolumeTooShort { needed }, 5, vec![4]),
        (Refusal::Sector, 6, vec![]),
        (Refusal::StagedSector { entry }, 6, vec![6]),
        (Refusal::JournalSector { section, entry }, 6, vec![5, 6]),
        (Refusal::Tag { sector }, 7, vec![7]),
        (Refusal::JournalTag { section, entry }, 7, vec![5, 6]),
        (Refusal::BatchFull, 8, vec![]),
        (Refusal::NotNow, 9, vec![]),
        (Refusal::IdsUsedUp, 10, vec![]),
        (Refusal::SectionMisplaced { section }, 11, vec![5]),
    ] {
        assert_eq!((refusal.number(), refusal.values()), (number, values));
    }
}

#[test]
fn format_order() {
    let out_of_range = Layout {
        tag_size: 33,
        ..LAYOUT
    };
    let needed = SECTORS as u64;
    for (length, layout, expected) in [
        // 1 before 2.
        (513, out_of_range, LENGTH_OR_STATE),
        ((VOLUME_LIMIT + 1) * 512, out_of_range, LENGTH_OR_STATE),
        // 2 before 5.
        (0, out_of_range, Refusal::Parameter),
        ((SECTORS - 1) * 512, out_of_range, Refusal::Parameter),
        // 5 before 3: the superblock isn't zero.
        (0, LAYOUT, too_short(needed)),
        ((SECTORS - 1) * 512, LAYOUT, too_short(needed)),
        (SECTORS * 512, LAYOUT, Refusal::SuperblockNotZero),
        (VOLUME_LIMIT * 512, LAYOUT, Refusal::SuperblockNotZero),
    ] {
        let mut volume = vec![1; length];
        assert_eq!(calls::format(&mut volume, &layout), Err(expected));
    }
}

/// The whole superblock must be zero, and nothing before or behind it.
#[test]
fn format_superblock() {
    for byte in [0, 4095] {
        let mut volume = vec![0; SECTORS * 512];
        volume[2 * 512 + byte] = 1;
        let answer = calls::format(&mut volume, &LAYOUT);
        assert_eq!(answer, Err(Refusal::SuperblockNotZero));
    }
    for byte in [2 * 512 - 1, 10 * 512] {
        let mut volume = vec![0; SECTORS * 512];
        volume[byte] = 1;
        assert_eq!(calls::format(&mut volume, &LAYOUT), Ok(()));
    }
}

fn refused_open(volume: &[u8], reserved: u64, staging: usize) -> Option<Refusal> {
    calls::open(volume, reserved, &mut vec![0x33; staging]).err()
}

#[test]
fn open_order_before_the_journal() {
    let whole = formatted(&LAYOUT, 0);
    let mut invalid = whole.clone();
    invalid[2 * 512 + 4095] = 1;
    let zero = vec![0; SECTORS * 512];
    let over = vec![0; (VOLUME_LIMIT + 1) * 512];
    let needed = SECTORS as u64;
    for (volume, reserved, staging, expected) in [
        // 1 before 2.
        (&whole[..513], 65, 0, LENGTH_OR_STATE),
        (&over, u64::MAX, 0, LENGTH_OR_STATE),
        // 2 before 5.
        (&[], 65, 0, Refusal::Parameter),
        (&whole, u64::MAX, 0, Refusal::Parameter),
        // 5 before 3.
        (&[], 0, 0, too_short(8)),
        (&zero[..9 * 512], 2, 0, too_short(10)),
        (&zero[..9 * 512], 64, 0, too_short(72)),
        // 3 before 4: a zero superblock isn't valid either.
        (&zero[..10 * 512], 2, 0, Refusal::SuperblockZero),
        // 4 before 5.
        (&invalid[..10 * 512], 2, 0, Refusal::SuperblockNotValid),
        (&whole[..10 * 512], 1, 0, Refusal::SuperblockNotValid),
        // 5 before 1.
        (&whole[..10 * 512], 2, 0, too_short(needed)),
        (&whole[..(SECTORS - 1) * 512], 2, 0, too_short(needed)),
        (&whole, 2, STAGING - 1, LENGTH_OR_STATE),
        (&whole, 2, STAGING + 512, LENGTH_OR_STATE),
    ] {
        assert_eq!(refused_open(volume, reserved, staging), Some(expected));
    }
    assert_eq!(refused_open(&whole, 2, STAGING), None);
}

/// A wrong byte or range anywhere in the superblock.
#[test]
fn superblock_not_valid() {
    let whole = formatted(&LAYOUT, 0);
    for byte in (0..9).chain(24..4096) {
        let mut volume = whole.clone();
        volume[2 * 512 + byte] ^= 0x10;
        let answer = refused_open(&volume, 2, STAGING);
        assert_eq!(answer, Some(Refusal::SuperblockNotValid), "byte {byte}");
    }
    // Each number, then the high bytes of each.
    for (byte, value) in [
        (9, 2),
        (9, 16),
        (10, 0),
        (10, 33),
        (11, 1),
        (12, 0),
        (12, 65),
        (13, 1),
        (15, 1),
        (16, 0),
        (19, 1),
        (23, 1),
    ] {
        let mut volume = whole.clone();
        volume[2 * 512 + byte] = value;
        let answer = refused_open(&volume, 2, STAGING);
        assert_eq!(answer, Some(Refusal::SuperblockNotValid), "byte {byte}");
    }
}

#[test]
fn open_order_in_the_journal() {
    let good = Entry::new(3, 1);
    let beyond = Entry::new(10, 2);
    let misfit = good.with_wrong_tag();
    let both = beyond.with_wrong_tag();
    let misplaced = |section| Refusal::SectionMisplaced { section };
    let rows: &[(Sections, Refusal)] = &[
        // 10 before 11: the id 2^64 - 1 goes to section 0.
        (&[(1, u64::MAX, &[both])], Refusal::IdsUsedUp),
        (&[(0, u64::MAX, &[both])], Refusal::IdsUsedUp),
        // 11 before 6, by section and not by id, and also without a used entry.
        (&[(0, 1, &[both]), (1, 3, &[both])], misplaced(1)),
        (&[(0, 4, &[both]), (1, 3, &[both])], misplaced(0)),
        (&[(0, 1, &[good]), (1, 1, &[])], misplaced(1)),
        // 6 before 7.
        (&[(0, 1, &[both])], bad_sector(0, 0)),
        (&[(0, 1, &[good, both])], bad_sector(0, 1)),
        (&[(0, 1, &[good, misfit])], bad_tag(0, 1)),
        // Entry by entry, in replay order: by id, not by section.
        (&[(0, 1, &[misfit, beyond])], bad_tag(0, 0)),
        (&[(0, 1, &[beyond, misfit])], bad_sector(0, 0)),
        (&[(0, 3, &[beyond]), (1, 2, &[good, misfit])], bad_tag(1, 1)),
        (&[(0, 1, &[misfit]), (1, 2, &[beyond])], bad_tag(0, 0)),
        // Behind an unused entry.
        (&[(0, 1, &[Entry::new(UNUSED, 0), misfit])], bad_tag(0, 1)),
        (&[(0, 1, &[Entry::new(UNUSED - 1, 0)])], bad_sector(0, 0)),
    ];
    for (sections, expected) in rows {
        let volume = with_sections(sections);
        assert_eq!(refused_open(&volume, 2, STAGING), Some(*expected));
        // 1 before all of them.
        let answer = refused_open(&volume, 2, STAGING - 512);
        assert_eq!(answer, Some(LENGTH_OR_STATE));
    }
}

/// Refusal 10 sees torn sections, and sectors behind the one where the scan stops.
#[test]
fn open_sees_every_id() {
    let geometry = geometry(&LAYOUT);
    for (section, sector) in [(0, 0), (0, 5), (1, 0), (1, 87)] {
        let mut volume = with_sections(&[(0, 1, &[Entry::new(3, 1)])]);
        put_id(&mut volume, &geometry, 1, 0, 7);
        put_id(&mut volume, &geometry, section, sector, u64::MAX);
        assert_eq!(refused_open(&volume, 2, STAGING), Some(Refusal::IdsUsedUp));
        put_id(&mut volume, &geometry, section, sector, u64::MAX - 1);
        let opened = calls::open(&volume, 2, &mut vec![0; STAGING]).unwrap();
        assert_eq!(opened.state.id, u64::MAX);
    }
}

#[test]
fn write_order() {
    for (state, staging, sector, bytes, expected) in [
        // 1 before 9.
        (committing(0), STAGING - 1, 10, 512, LENGTH_OR_STATE),
        (committing(0), STAGING + 512, 10, 512, LENGTH_OR_STATE),
        (committing(0), STAGING, 10, 511, LENGTH_OR_STATE),
        (committing(0), STAGING, 10, 513, LENGTH_OR_STATE),
        (recovering(0), STAGING, 10, 0, LENGTH_OR_STATE),
        // 9 before 6; a recovery's place isn't tested.
        (committing(0), STAGING, 10, 512, Refusal::NotNow),
        (writing_back(0, 80), STAGING, 10, 512, Refusal::NotNow),
        (recovering(u64::MAX), STAGING, 10, 512, Refusal::NotNow),
        // 6 before 8.
        (filling_with(80), STAGING, 10, 512, Refusal::Sector),
        (filling_with(80), STAGING, u64::MAX, 512, Refusal::Sector),
        (filling_with(80), STAGING, 9, 512, Refusal::BatchFull),
    ] {
        let mut state = state;
        let mut staging = vec![0x44; staging];
        let answer = calls::write(&mut state, &mut staging, sector, &vec![0; bytes]);
        assert_eq!(answer, Err(expected), "{state:?}");
    }
}

#[test]
fn flush_order() {
    let with_last_id = |state| State {
        id: u64::MAX,
        ..state
    };
    for (state, expected) in [
        // 1 before 9.
        (with_last_id(writing_back(1, 1)), LENGTH_OR_STATE),
        (with_last_id(committing(0)), LENGTH_OR_STATE),
        // 9 before 10; a recovery's place isn't tested.
        (with_last_id(writing_back(0, 1)), Refusal::NotNow),
        (committing(3), Refusal::NotNow),
        (recovering(u64::MAX), Refusal::NotNow),
        (with_last_id(filling_with(1)), Refusal::IdsUsedUp),
    ] {
        let mut state = state;
        assert_eq!(calls::flush(&mut state), Err(expected), "{state:?}");
    }
    for mut state in [filling(), with_last_id(filling())] {
        assert!(calls::flush(&mut state).is_ok());
    }
}

/// Of staged entries and entries in the journal a step refuses only the one at hand, at either store.
#[test]
fn step_refuses_the_entry_at_hand() {
    let entries = [Entry::new(3, 1), Entry::new(10, 2), Entry::new(UNUSED, 3)];
    let mut volume = with_sections(&[(1, 2, &entries)]);
    let mut staging = volumes::section(&geometry(&LAYOUT), 0, &entries);
    for store in [0, 1] {
        for (entry, refused) in [(0, false), (1, true), (2, true)] {
            let mut state = in_phase(Phase::WritingBack { entry, store }, 3);
            let expected = refused.then_some(Refusal::StagedSector { entry });
            let answer = calls::step(&mut state, &mut volume, &mut staging);
            assert_eq!(answer.err(), expected);
        }
    }
    for (store, refused) in [(0, false), (1, false), (2, true), (3, true)] {
        let mut state = recovering(store);
        let expected = refused.then_some(bad_sector(1, 1));
        let answer = calls::step(&mut state, &mut volume, &mut staging);
        assert_eq!(answer.err(), expected);
    }
    // There are four stores. A whole recovery is refused before the first.
    let answer = calls::step(&mut recovering(4), &mut volume, &mut staging);
    assert_eq!(answer, Err(LENGTH_OR_STATE));
    let answer = calls::recover(&mut recovering(0), &mut volume, &staging);
    assert_eq!(answer, Err(bad_sector(1, 1)));
}

#[test]
fn read_order() {
    let geometry = geometry(&LAYOUT);
    let mut volume = with_sections(&[(0, 1, &[Entry::new(3, 1)])]);
    volume[geometry.base * 512..].fill(0xee);
    let tag = |sector| Refusal::Tag { sector };
    for (state, sector, out, expected) in [
        // 1 before 9; the recovery has two stores.
        (recovering(0), 10, 511, LENGTH_OR_STATE),
        (recovering(2), 10, 512, LENGTH_OR_STATE),
        // 9 before 6.
        (recovering(1), 10, 512, Refusal::NotNow),
        // 6 before 7: no tag of the volume fits.
        (filling(), 10, 512, Refusal::Sector),
        (filling(), u64::MAX, 512, Refusal::Sector),
        (committing(0), 10, 512, Refusal::Sector),
        (filling(), 9, 512, tag(9)),
        (committing(0), 4, 512, tag(4)),
        (writing_back(0, 1), 4, 512, tag(4)),
    ] {
        let staging = volumes::section(&geometry, 0, &[Entry::new(5, 1), Entry::new(4, 1)]);
        let answer = calls::read(&state, &volume, &staging, sector, &mut vec![7; out]);
        assert_eq!(answer, Err(expected), "{state:?}");
    }
}
