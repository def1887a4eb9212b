//! Tags that lie across two sectors: the stores of their entries, which calls test that an entry has a third one, the stores of
//! a recovery; and the zeros behind a tag in an entry.

use crate::calls;
use crate::setting::{with_sections_of, ACROSS_SECTORS};
use random::cases;
use reference::volume::{advance, digest_of_sector, verify, Phase, Refusal, Said, State, TagRule};
use volumes::any::fill_padding;
use volumes::{formatted, geometry, padding_place, section, Entry, UNUSED};

const LENGTH_OR_STATE: Refusal = Refusal::LengthOrState;

/// Numbers that are not provided: the first two leave 17 when they are divided by 32, the others do not.
const BEYOND_ACROSS: [u64; 2] = [17 + 32, u64::MAX - 14];
const BEYOND: [u64; 2] = [24, u64::MAX - 1];

fn in_phase(phase: Phase, count: u64) -> State {
    State {
        layout: ACROSS_SECTORS,
        phase,
        count,
        id: 1,
    }
}

fn writing_back(entry: u64, store: u64, count: u64) -> State {
    in_phase(Phase::WritingBack { entry, store }, count)
}

/// The two stores of a tag, and those around them: each is to the sector named, and only the tag's bytes there are replaced.
#[test]
fn stores_of_a_batch() {
    let geometry = geometry(&ACROSS_SECTORS);
    let mut volume = formatted(&ACROSS_SECTORS, 0);
    let entries = [16, 17, 18].map(|sector| Entry::new(sector, sector as u8));
    let mut staging = section(&geometry, 0, &entries);
    let mut state = in_phase(Phase::Committing { sector: 0 }, 3);
    let commit = geometry.section_sectors as u64;
    let advanced = advance(&mut state, &mut volume, &mut staging, commit);
    assert!(advanced.acknowledged);

    let area = geometry.base as u64;
    let data = area + geometry.tag_area as u64;
    for (entry, store, sector, bytes) in [
        (0, 0, data + 16, 0..512),
        (0, 1, area, 480..510),
        (1, 0, data + 17, 0..512),
        (1, 1, area, 510..512),
        (1, 2, area + 1, 0..28),
        (2, 0, data + 18, 0..512),
        (2, 1, area + 1, 28..58),
    ] {
        assert_eq!(state.phase, writing_back(entry, store, 3).phase);
        let number = 16 + entry;
        let tag = digest_of_sector(number, &[number as u8; 512]);
        let new = match store {
            0 => vec![number as u8; 512],
            1 => tag[..bytes.len()].to_vec(),
            _ => tag[2..30].to_vec(),
        };
        let mut expected = volume.clone();
        expected[sector as usize * 512..][bytes].copy_from_slice(&new);
        let stepped = calls::step(&mut state, &mut volume, &mut staging).unwrap();
        assert_eq!(stepped.stored, Some(sector));
        assert!(volume == expected, "entry {entry}, store {store}");
    }
    assert_eq!(state.phase, Phase::Filling);
    for sector in 0..24 {
        let answer = calls::read(&state, &volume, &staging, sector, &mut [0; 512]);
        assert_eq!(answer, Ok(()));
    }
}

/// The third store of an entry that has none is refused with 1 by step and read, which look at the staged entry, and is not now
/// for the others, which do not. One that an entry has is made, or refused with 6 where the sector is not provided.
#[test]
fn which_calls_test_the_third_store() {
    let geometry = geometry(&ACROSS_SECTORS);
    let volume = formatted(&ACROSS_SECTORS, 0);
    let sectors = [&[17, 16], &BEYOND_ACROSS[..], &BEYOND, &[UNUSED]].concat();
    let entries: Vec<Entry> = sectors.iter().map(|s| Entry::new(*s, 1)).collect();
    let staging = section(&geometry, 0, &entries);
    let count = entries.len() as u64;
    for (entry, sector) in (0..).zip(sectors) {
        let across = sector == 17 || BEYOND_ACROSS.contains(&sector);
        let refused = (sector >= 24).then_some(Refusal::StagedSector { entry });
        for store in 0..=4 {
            let state = writing_back(entry, store, count);
            let exists = store < 2 || store == 2 && across;
            let unsound = (!exists).then_some(LENGTH_OR_STATE);
            let (mut stepped, mut staged) = (state, staging.clone());
            let answer = calls::step(&mut stepped, &mut volume.clone(), &mut staged);
            assert_eq!(answer.err(), unsound.or(refused), "{sector}, {store}");
            let (mut told, mut staged) = (state, staging.clone());
            let answer = calls::next_store(&mut told, &volume, &mut staged, &mut [0; 512]);
            assert_eq!(answer.err(), unsound.or(refused), "{sector}, {store}");
            let answer = calls::read(&state, &volume, &staging, 5, &mut [0; 512]);
            assert_eq!(answer.err(), unsound, "{sector}, {store}");
            let answer = calls::read(&state, &volume, &staging, 24, &mut [0; 512]);
            assert_eq!(answer.err(), unsound.or(Some(Refusal::Sector)));

            let untested = if store < 3 {
                Err(Refusal::NotNow)
            } else {
                Err(LENGTH_OR_STATE)
            };
            let answer = calls::write(&mut state.clone(), &mut staging.clone(), 24, &[0; 512]);
            assert_eq!(answer, untested);
            assert_eq!(calls::flush(&mut state.clone()).map(|_| ()), untested);
            assert_eq!(verify(&state, &volume, 0, 1, TagRule::Digest), untested);
        }
    }
}

/// Every entry to replay has its two or three stores, whether its sector is provided or not: only at one that is not is the
/// recovery refused with 6, and behind the last store with 1.
#[test]
fn stores_of_a_recovery() {
    let geometry = geometry(&ACROSS_SECTORS);
    let sectors = [&[16, 17], &BEYOND_ACROSS[..], &BEYOND, &[UNUSED, 17]].concat();
    let entries: Vec<Entry> = sectors.iter().map(|s| Entry::new(*s, 1)).collect();
    let volume = with_sections_of(&ACROSS_SECTORS, &[(1, 2, &entries), (0, 3, &entries[..2])]);
    let mut expected = vec![];
    for (section, entries) in [(1, &sectors[..]), (0, &sectors[..2])] {
        for (entry, sector) in (0..).zip(entries) {
            let stores = match sector {
                &UNUSED => 0,
                sector if sector % 32 == 17 => 3,
                _ => 2,
            };
            let refusal = Refusal::JournalSector { section, entry };
            let answer = (*sector >= 24).then_some(refusal);
            expected.extend(vec![answer; stores]);
        }
    }
    assert_eq!(expected.len(), 2 + 3 + 3 + 3 + 2 + 2 + 3 + 2 + 3);
    expected.extend([Some(LENGTH_OR_STATE); 2]);
    let staging = section(&geometry, 0, &[]);
    for (store, refusal) in (0..).zip(expected) {
        let mut state = in_phase(Phase::Recovering { store }, 0);
        let answer = calls::read(&state, &volume, &staging, 24, &mut [0; 512]);
        let not_now = match refusal {
            Some(LENGTH_OR_STATE) => LENGTH_OR_STATE,
            _ => Refusal::NotNow,
        };
        assert_eq!(answer, Err(not_now), "{store}");
        let (mut volume, mut staging) = (volume.clone(), staging.clone());
        let answer = calls::step(&mut state, &mut volume, &mut staging);
        assert_eq!(answer.err(), refusal, "{store}");
        // All that is left at once: refused before the first store where one is refused.
        let answer = calls::recover(&mut state, &mut volume, &staging);
        assert_eq!(answer.is_err(), store < 15 || refusal.is_some());
    }
}

/// What a recovery stores is what the write-back of the same entries stores.
#[test]
fn recovery_as_write_back() {
    let geometry = geometry(&ACROSS_SECTORS);
    let entries = [17, 16, 17].map(|sector| Entry::new(sector, sector as u8));
    let mut recovered = with_sections_of(&ACROSS_SECTORS, &[(0, 1, &entries)]);
    let mut written = recovered.clone();
    let mut staging = section(&geometry, 0, &entries);
    let mut state = writing_back(0, 0, 3);
    let mut opened_staging = vec![7; geometry.staging_length()];
    let opened = calls::open(&recovered, 2, &mut opened_staging).unwrap();
    assert_eq!(opened.stores_to_come, 8);
    let mut recovering = opened.state;
    for store in 0..8 {
        assert_eq!(recovering.phase, Phase::Recovering { store });
        let expected = calls::step(&mut state, &mut written, &mut staging).unwrap();
        let stepped = calls::step(&mut recovering, &mut recovered, &mut opened_staging).unwrap();
        assert_eq!(stepped, expected);
        assert_eq!(stepped.said == Said::Filling, store == 7);
        assert!(recovered == written);
    }
}

/// Write stores zeros behind a tag, whatever staging held there. Commit stores what staging holds, and open ignores it.
#[test]
fn behind_a_tag() {
    cases(20, |random| {
        let geometry = geometry(&ACROSS_SECTORS);
        let entry = random.length(0..=geometry.entries - 1);
        let padding = padding_place(&geometry, entry);
        assert_eq!(padding.len(), 2);
        let mut state = in_phase(Phase::Filling, entry as u64);
        let mut staging = random.bytes(geometry.staging_length());
        staging[padding.clone()].fill(0xff);
        calls::write(&mut state, &mut staging, 17, &[3; 512]).unwrap();
        assert_eq!(staging[padding.clone()], [0; 2]);

        let mut staging = section(&geometry, 0, &[Entry::new(17, 1), Entry::new(16, 2)]);
        fill_padding(random, &geometry, &mut staging);
        let mut volume = formatted(&ACROSS_SECTORS, 0);
        let mut state = in_phase(Phase::Committing { sector: 0 }, 2);
        advance(&mut state, &mut volume, &mut staging, 88);
        let committed = &volume[geometry.journal() * 512..];
        assert_eq!(committed[padding.clone()], staging[padding]);
        let opened = calls::open(&volume, 2, &mut staging).unwrap();
        assert_eq!(opened.stores_to_come, 5);
    });
}
