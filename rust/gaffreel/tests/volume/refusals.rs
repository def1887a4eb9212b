//! Each refusal of each call, by the safe wrapper: its number, its values and what it says.

use gaffreel::volume::{
    advance, flush, format, next_store, open, query, read, step, verify, write,
};
use gaffreel::volume::{format_keyed, open_keyed, read_keyed, verify_keyed, write_keyed};
use gaffreel::volume::{Layout, Phase, State, Stopped, Volume};
use gaffreel::Refusal;
use volumes::{put_id, put_section, section, Entry};

const LAYOUT: Layout = Layout {
    reserved: 2,
    log2_run: 3,
    tag_size: 32,
    sections: 2,
    provided: 10,
};

/// The whole layout's sectors.
const SECTORS: usize = 2 + 8 + 2 * 88 + 2 * 8 + 10;

/// Staging's length.
const STAGING: usize = 88 * 512;

fn geometry() -> reference::volume::Geometry {
    volumes::geometry(&reference::volume::Layout {
        reserved: LAYOUT.reserved,
        log2_run: LAYOUT.log2_run,
        tag_size: LAYOUT.tag_size,
        sections: LAYOUT.sections,
        provided: LAYOUT.provided,
    })
}

fn formatted() -> Vec<u8> {
    let mut volume = vec![0; SECTORS * 512];
    format(&mut volume, &LAYOUT).unwrap();
    volume
}

/// A volume whose journal has a section of these entries.
fn with_section(number: usize, id: u64, entries: &[Entry]) -> Vec<u8> {
    let mut volume = formatted();
    let section = section(&geometry(), id, entries);
    put_section(&mut volume, &geometry(), number, &section);
    volume
}

fn in_phase(phase: Phase, count: u64) -> State {
    State {
        layout: LAYOUT,
        phase,
        count,
        id: 1,
    }
}

#[test]
fn of_format() {
    let zero = vec![0; SECTORS * 512];
    let refused = |volume: &[u8], layout: &Layout| format(&mut volume.to_vec(), layout).err();
    let answer = refused(&zero[1..], &LAYOUT);
    assert_eq!(answer, Some(Refusal::LengthOrState));
    for tag_size in [0, 33, 256 + 20] {
        let out_of_range = Layout { tag_size, ..LAYOUT };
        assert_eq!(refused(&zero, &out_of_range), Some(Refusal::OutOfRange));
    }
    let needed = SECTORS as u64;
    let too_short = Refusal::VolumeTooShort { needed };
    assert_eq!(refused(&zero[512..], &LAYOUT), Some(too_short));
    let answer = refused(&formatted(), &LAYOUT);
    assert_eq!(answer, Some(Refusal::SuperblockNotZero));
}

/// What query refuses, open refuses alike.
#[test]
fn of_query_and_open() {
    let whole = formatted();
    let mut invalid = whole.clone();
    invalid[2 * 512 + 8] = 5;
    let zero = vec![0; SECTORS * 512];
    let short = |needed| Refusal::VolumeTooShort { needed };
    for (volume, reserved, refusal) in [
        (&whole[1..], 2, Refusal::LengthOrState),
        (&whole, 65, Refusal::OutOfRange),
        (&whole[..9 * 512], 2, short(10)),
        (&zero, 2, Refusal::SuperblockZero),
        (&invalid, 2, Refusal::SuperblockNotValid),
        (&whole[..(SECTORS - 1) * 512], 2, short(SECTORS as u64)),
    ] {
        assert_eq!(query(volume, reserved), Err(refusal));
        let answer = open(volume, reserved, &mut [0; STAGING]);
        assert_eq!(answer, Err(refusal));
    }
    assert_eq!(query(&whole, 2).unwrap().staging_length, STAGING);
    let answer = open(&whole, 2, &mut [0; STAGING - 1]);
    assert_eq!(answer, Err(Refusal::LengthOrState));
}

#[test]
fn of_open() {
    let good = Entry::new(3, 1);
    let beyond = Entry::new(10, 1);
    let (section, entry) = (1, 2);
    let used_up = {
        let mut volume = formatted();
        put_id(&mut volume, &geometry(), 1, 87, u64::MAX);
        volume
    };
    for (volume, refusal) in [
        (used_up, Refusal::IdsUsedUp),
        (
            with_section(1, 3, &[good]),
            Refusal::SectionMisplaced { section },
        ),
        (
            with_section(1, 2, &[good, good, beyond]),
            Refusal::JournalSector { section, entry },
        ),
        (
            with_section(1, 2, &[good, good, good.with_wrong_tag()]),
            Refusal::JournalTag { section, entry },
        ),
    ] {
        let answer = open(&volume, 2, &mut [0; STAGING]);
        assert_eq!(answer, Err(refusal));
    }
}

#[test]
fn of_write_and_flush() {
    let filling = in_phase(Phase::Filling, 0);
    let full = in_phase(Phase::Filling, 80);
    let committing = in_phase(Phase::Committing { sector: 0 }, 1);
    // Neither looks whether the staged entry has a third store; none has a fourth.
    let at_store = |store| in_phase(Phase::WritingBack { entry: 0, store }, 1);
    for (state, sector, refusal) in [
        (at_store(3), 0, Refusal::LengthOrState),
        (at_store(2), 0, Refusal::NotNow),
        (committing, 0, Refusal::NotNow),
        (filling, 10, Refusal::Sector),
        (full, 9, Refusal::BatchFull),
    ] {
        let answer = write(&mut { state }, &mut [0; STAGING], sector, &[0; 512]);
        assert_eq!(answer, Err(refusal));
    }
    let last_id = State {
        id: u64::MAX,
        ..full
    };
    for (state, refusal) in [
        (at_store(3), Refusal::LengthOrState),
        (at_store(2), Refusal::NotNow),
        (committing, Refusal::NotNow),
        (last_id, Refusal::IdsUsedUp),
    ] {
        assert_eq!(flush(&mut { state }), Err(refusal));
    }
}

#[test]
fn of_step_and_advance() {
    let entries = [Entry::new(3, 1), Entry::new(10, 2)];
    let volume = with_section(1, 2, &entries);
    let staging = section(&geometry(), 0, &entries);
    let staged = |entry| in_phase(Phase::WritingBack { entry, store: 0 }, 2);
    let replayed = |store| in_phase(Phase::Recovering { store }, 0);
    let committing = in_phase(Phase::Committing { sector: 0 }, 2);
    let (section, entry) = (1, 1);
    let in_staging = Refusal::StagedSector { entry };
    let in_journal = Refusal::JournalSector { section, entry };
    for (first, at_hand, refusal, done, acknowledged) in [
        (staged(0), staged(1), in_staging, 2, false),
        (replayed(0), replayed(2), in_journal, 2, false),
        (committing, staged(1), in_staging, 90, true),
    ] {
        let mut loans = (at_hand, volume.clone(), staging.clone());
        let answer = step(&mut loans.0, &mut loans.1, &mut loans.2);
        assert_eq!(answer, Err(refusal));
        assert!(loans == (at_hand, volume.clone(), staging.clone()));
        // The steps before the refused one stay, and are counted.
        let mut loans = (first, volume.clone(), staging.clone());
        let answer = advance(&mut loans.0, &mut loans.1, &mut loans.2, 99);
        let stopped = Stopped {
            refusal,
            done,
            acknowledged,
        };
        assert_eq!(answer, Err(stopped));
        let id = first.id + u64::from(acknowledged);
        assert_eq!(loans.0, State { id, ..at_hand });
        let home = geometry().home(3).unwrap();
        assert_eq!(loans.1[home.data * 512..][..512], [1; 512]);
    }
    // There are four stores of the replay, and each entry has two.
    let third = in_phase(Phase::WritingBack { entry: 0, store: 2 }, 2);
    for state in [replayed(4), third] {
        let answer = step(
            &mut state.clone(),
            &mut volume.clone(),
            &mut staging.clone(),
        );
        assert_eq!(answer, Err(Refusal::LengthOrState));
    }
}

/// As a step is, and where the content is not a sector long. Nothing is changed.
#[test]
fn of_next_store() {
    let entries = [Entry::new(3, 1), Entry::new(10, 2)];
    let volume = with_section(1, 2, &entries);
    let staging = section(&geometry(), 0, &entries);
    let staged = in_phase(Phase::WritingBack { entry: 1, store: 0 }, 2);
    let third = in_phase(Phase::WritingBack { entry: 0, store: 2 }, 2);
    let replayed = |store| in_phase(Phase::Recovering { store }, 0);
    let (section, entry) = (1, 1);
    for (state, length, refusal) in [
        (third, 512, Refusal::LengthOrState),
        (staged, 512, Refusal::StagedSector { entry }),
        (replayed(2), 512, Refusal::JournalSector { section, entry }),
        (replayed(4), 512, Refusal::LengthOrState),
        (replayed(0), 511, Refusal::LengthOrState),
        (replayed(0), 513, Refusal::LengthOrState),
    ] {
        let mut loans = (state, staging.clone(), vec![9; length]);
        let answer = next_store(&mut loans.0, &volume, &mut loans.1, &mut loans.2);
        assert_eq!(answer, Err(refusal));
        assert!(loans == (state, staging.clone(), vec![9; length]));
    }
}

/// An advance that stopped says what it counted, and what the refusal says.
#[test]
fn messages_of_advance() {
    let refusal = Refusal::StagedSector { entry: 1 };
    for (done, acknowledged, counted) in [
        (0, false, "stopped after 0 steps: "),
        (1, false, "stopped after 1 step: "),
        (90, true, "stopped after 90 steps, the batch acknowledged: "),
    ] {
        let stopped = Stopped {
            refusal,
            done,
            acknowledged,
        };
        assert_eq!(stopped.to_string(), format!("{counted}{refusal}"));
        assert_eq!(Refusal::from(stopped), refusal);
    }
}

#[test]
fn of_read() {
    let mut volume = with_section(0, 1, &[Entry::new(3, 1)]);
    let home = geometry().home(4).unwrap();
    volume[home.data * 512] = 1;
    let filling = in_phase(Phase::Filling, 0);
    let recovering = in_phase(Phase::Recovering { store: 1 }, 0);
    let unsound = in_phase(Phase::Recovering { store: 2 }, 0);
    let third = in_phase(Phase::WritingBack { entry: 0, store: 2 }, 1);
    for (state, sector, refusal) in [
        (unsound, 0, Refusal::LengthOrState),
        (third, 0, Refusal::LengthOrState),
        (recovering, 0, Refusal::NotNow),
        (filling, 10, Refusal::Sector),
        (filling, 4, Refusal::Tag { sector: 4 }),
    ] {
        let mut out = [9; 512];
        let answer = read(&state, &volume, &[0; STAGING], sector, &mut out);
        assert_eq!((answer, out), (Err(refusal), [9; 512]));
    }
}

#[test]
fn of_verify() {
    let mut volume = with_section(0, 1, &[Entry::new(3, 1)]);
    for sector in [7, 4] {
        let home = geometry().home(sector).unwrap();
        volume[home.data * 512] = 1;
    }
    let filling = in_phase(Phase::Filling, 0);
    let committing = in_phase(Phase::Committing { sector: 0 }, 2);
    let recovering = in_phase(Phase::Recovering { store: 1 }, 0);
    let unsound = in_phase(Phase::Recovering { store: 2 }, 0);
    // Staging is not lent, so that no staged entry is looked at.
    let at_store = |store| in_phase(Phase::WritingBack { entry: 0, store }, 1);
    for (state, first, count, answer) in [
        (unsound, 0, 1, Err(Refusal::LengthOrState)),
        (at_store(3), 0, 1, Err(Refusal::LengthOrState)),
        (at_store(2), 0, 1, Err(Refusal::NotNow)),
        (recovering, 0, 1, Err(Refusal::NotNow)),
        (committing, 0, 1, Err(Refusal::NotNow)),
        (filling, 0, 11, Err(Refusal::Sector)),
        (filling, 11, 0, Err(Refusal::Sector)),
        (filling, u64::MAX, u64::MAX, Err(Refusal::Sector)),
        (filling, 0, 10, Err(Refusal::Tag { sector: 4 })),
        (filling, 5, 5, Err(Refusal::Tag { sector: 7 })),
        (filling, 8, 2, Ok(())),
        (filling, 10, 0, Ok(())),
    ] {
        assert_eq!(verify(&state, &volume, first, count), answer);
    }
    let answer = verify(&filling, &volume[1..], 0, 0);
    assert_eq!(answer, Err(Refusal::LengthOrState));
}

/// A key of a wrong length, and tags that do not fit under a key.
#[test]
fn of_the_calls_with_a_key() {
    let key = [7; 64];
    let mut volume = vec![0; SECTORS * 512];
    format_keyed(&mut volume, &LAYOUT, &key).unwrap();
    let filling = in_phase(Phase::Filling, 0);
    for length in [0, 257, 1000] {
        let refused = Err(Refusal::OutOfRange);
        let key = vec![7; length];
        let mut zero = vec![0; SECTORS * 512];
        assert_eq!(format_keyed(&mut zero, &LAYOUT, &key), refused);
        let mut staging = [0; STAGING];
        let answer = open_keyed(&volume, 2, &mut staging, &key);
        assert_eq!(answer.map(|_| ()), refused);
        let answer = write_keyed(&mut { filling }, &mut staging, 0, &[0; 512], &key);
        assert_eq!(answer, refused);
        let mut out = [9; 512];
        let answer = read_keyed(&filling, &volume, &staging, 0, &mut out, &key);
        assert_eq!((answer, out), (refused, [9; 512]));
        assert_eq!(verify_keyed(&filling, &volume, 11, 0, &key), refused);
        assert_eq!(Volume::open_keyed(&volume, 2, &key).map(|_| ()), refused);
        // 1 before 2, and 2 for the key before all others.
        let answer = Volume::open_keyed(&volume[1..], 2, &key).err();
        assert_eq!(answer, Some(Refusal::LengthOrState));
        assert_eq!(Volume::open_keyed(&[], 2, &key).map(|_| ()), refused);
    }
    let answer = format_keyed(&mut volume.clone(), &LAYOUT, &key);
    assert_eq!(answer, Err(Refusal::SuperblockNotZero));
    let answer = read_keyed(
        &filling,
        &volume,
        &[0; STAGING],
        4,
        &mut [9; 512],
        &key[1..],
    );
    assert_eq!(answer, Err(Refusal::Tag { sector: 4 }));
    assert_eq!(verify_keyed(&filling, &volume, 4, 6, &key), Ok(()));
    let answer = verify_keyed(&filling, &volume, 4, 6, &key[1..]);
    assert_eq!(answer, Err(Refusal::Tag { sector: 4 }));
}

#[test]
fn numbers_values_and_messages() {
    let (needed, section, entry, sector) = (u64::MAX, 5, 6, 7);
    let rows = [
        (Refusal::LengthOrLimit, 1, vec![]),
        (Refusal::LengthOrState, 1, vec![]),
        (Refusal::OutOfRange, 2, vec![]),
        (Refusal::SuperblockNotZero, 3, vec![]),
        (Refusal::SuperblockZero, 3, vec![]),
        (Refusal::SuperblockNotValid, 4, vec![]),
        (Refusal::VolumeTooShort { needed }, 5, vec![needed.into()]),
        (Refusal::Sector, 6, vec![]),
        (Refusal::StagedSector { entry }, 6, vec![6]),
        (Refusal::JournalSector { section, entry }, 6, vec![5, 6]),
        (Refusal::Tag { sector }, 7, vec![7]),
        (Refusal::JournalTag { section, entry }, 7, vec![5, 6]),
        (Refusal::BatchFull, 8, vec![]),
        (Refusal::NotNow, 9, vec![]),
        (Refusal::IdsUsedUp, 10, vec![]),
        (Refusal::SectionMisplaced { section }, 11, vec![5]),
        (Refusal::Mismatch { level: -1 }, 12, vec![-1]),
        (Refusal::Mismatch { level: 2 }, 12, vec![2]),
    ];
    for (refusal, number, values) in &rows {
        assert_eq!(
            (refusal.number(), refusal.values()),
            (*number, values.clone())
        );
        // What was met, and what to do.
        let message = refusal.to_string();
        assert!(message.contains(": "), "{message}");
        for value in values {
            let said = *value == -1 || message.contains(&value.to_string());
            assert!(said, "{message}");
        }
        let alike = rows.iter().filter(|row| row.0.to_string() == message);
        assert_eq!(alike.count(), 1, "{message}");
    }
}
