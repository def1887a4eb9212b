//! Volumes, staging, states and arguments of any kind: no call panics, a refusal changes nothing, a state that is taken
//! stays sound, and the calls that work on a whole volume agree with the single steps and reads.

use crate::calls;
use random::{cases, Random, Reached};
use reference::volume::{advance, check, query, Advanced, Layout, Phase, Refusal};
use reference::volume::{Said, State, Stepped, TagRule};
use volumes::any::{any_layout, any_number, any_staging, any_state, any_volume};
use volumes::any::{small_layout, with_journal};
use volumes::kinds::stores_to_replay;
use volumes::tag_sizes::TagSizes;
use volumes::{empty_staging, geometry};

/// What the calls are given.
struct Input {
    layout: Layout,
    volume: Vec<u8>,
    staging: Vec<u8>,
    state: State,
    sector: u64,
    bytes: Vec<u8>,
}

fn any_input(random: &mut Random) -> Input {
    let layout = any_layout(random);
    let volume = any_volume(random, &layout);
    let mut state = any_state(random, &layout);
    if random.number().is_multiple_of(8) {
        // A state of another layout than the volume's.
        state.layout = any_layout(random);
    }
    let staging = any_staging(random, &state.layout);
    let length = random.pick(&[512, 512, 512, 512, 512, 512, 0, 511, 513]);
    Input {
        layout,
        volume,
        staging,
        state,
        sector: match random.number() % 3 {
            0 => any_number(random),
            _ => random.number() % 40,
        },
        bytes: random.bytes(length),
    }
}

/// A state that a call has taken is sound for each later call.
fn assert_sound(state: &State, volume: &[u8], staging: &[u8]) {
    let answer = calls::flush(&mut state.clone());
    assert_ne!(answer, Err(Refusal::LengthOrState));
    let answer = calls::read(state, volume, staging, 0, &mut [0; 512]);
    assert_ne!(answer, Err(Refusal::LengthOrState));
}

#[test]
fn any_call() {
    let mut sizes = TagSizes::new();
    cases(4_000, |random| {
        let Input {
            layout,
            volume,
            staging,
            state,
            sector,
            bytes,
        } = any_input(random);

        let _ = calls::format(&mut volume.clone(), &layout);
        let other = any_number(random);
        let reserved = random.pick(&[layout.reserved, layout.reserved, 0, other]);
        let mut opened_staging = staging.clone();
        if let Ok(opened) = calls::open(&volume, reserved, &mut opened_staging) {
            assert_sound(&opened.state, &volume, &opened_staging);
        }
        let _ = calls::write(&mut state.clone(), &mut staging.clone(), sector, &bytes);
        let _ = calls::flush(&mut state.clone());
        let _ = calls::read(&state, &volume, &staging, sector, &mut bytes.clone());

        let (mut state, mut volume, mut staging) = (state, volume, staging);
        for _ in 0..4 {
            if calls::step(&mut state, &mut volume, &mut staging).is_ok() {
                assert_sound(&state, &volume, &staging);
            }
        }
        sizes.add(&layout);
    });
    sizes.assert_all(100);
}

/// Steps until one says filling or is refused.
fn steps(state: &mut State, volume: &mut [u8], staging: &mut [u8]) -> (u64, Option<Refusal>) {
    let mut stores = 0;
    loop {
        match calls::step(state, volume, staging) {
            Err(refusal) => return (stores, Some(refusal)),
            Ok(stepped) => {
                stores += stepped.stored.iter().count() as u64;
                if stepped.said == Said::Filling {
                    return (stores, None);
                }
            }
        }
    }
}

/// A whole recovery makes the stores that steps make, from any store on. If a step would be refused, it is refused before the first.
#[test]
fn recovery_at_once() {
    let mut reached = Reached::new();
    cases(500, |random| {
        let layout = small_layout(random);
        let volume = with_journal(random, &layout);
        let mut staging = empty_staging(&geometry(&layout));
        let stores = stores_to_replay(&volume, &geometry(&layout));
        let any = random.length(0..=stores.len());
        let third = stores.iter().position(|number| *number == 2);
        let store = random.pick(&[0, any, third.unwrap_or(any), stores.len()]);
        reached.add(stores.get(store).copied());
        let state = State {
            layout,
            phase: Phase::Recovering {
                store: store as u64,
            },
            count: 0,
            id: 1,
        };
        let mut stepped = (state, volume.clone());
        let (stores, refusal) = steps(&mut stepped.0, &mut stepped.1, &mut staging);
        let mut recovered = (state, volume);
        match calls::recover(&mut recovered.0, &mut recovered.1, &staging) {
            Ok(count) => {
                assert_eq!((count, None), (stores, refusal));
                assert!(recovered == stepped);
            }
            Err(refused) => assert_eq!(Some(refused), refusal),
        }
    });
    // From each of an entry's stores on, and behind the last.
    reached.assert_each(10, [Some(0), Some(1), Some(2), None]);
}

/// So many steps at once are as many single ones; those after one that stores nothing are all the same.
#[test]
fn advance_at_once() {
    cases(1_000, |random| {
        let Input {
            mut volume,
            mut staging,
            mut state,
            ..
        } = any_input(random);
        let mut stepped = (state, volume.clone(), staging.clone());
        let count = random.pick(&[0, 1, 2, 5, 200, 400]);
        let mut expected = Advanced {
            last: Ok(Stepped {
                stored: None,
                said: Said::Nothing,
            }),
            done: 0,
            acknowledged: false,
        };
        for _ in 0..count {
            expected.last = calls::step(&mut stepped.0, &mut stepped.1, &mut stepped.2);
            if let Ok(stepped) = expected.last {
                expected.done += stepped.stored.iter().count() as u64;
                expected.acknowledged |= stepped.said == Said::Acknowledged;
            }
        }
        let answer = advance(&mut state, &mut volume, &mut staging, count);
        assert_eq!(answer, expected);
        assert!((state, volume, staging) == stepped);
    });
}

/// A next store is a step but for its store. It is refused as the step is, and where its content is not a sector long.
#[test]
fn next_store_then_made() {
    cases(2_000, |random| {
        let Input {
            mut volume,
            mut staging,
            mut state,
            bytes: mut content,
            ..
        } = any_input(random);
        let mut stepped = (state, volume.clone(), staging.clone());
        let answer = calls::next_store(&mut state, &volume, &mut staging, &mut content);
        if content.len() == 512 {
            let expected = calls::step(&mut stepped.0, &mut stepped.1, &mut stepped.2);
            assert_eq!(answer, expected);
        } else {
            assert_eq!(answer, Err(Refusal::LengthOrState));
        }
        if let Ok(Some(sector)) = answer.map(|told| told.stored) {
            volume[sector as usize * 512..][..512].copy_from_slice(&content);
        }
        assert!((state, volume, staging) == stepped);
    });
}

/// A query is refused as open is before it looks at staging; else it gives the layout that open finds, and the length
/// that open asks for.
#[test]
fn query_before_open() {
    cases(2_000, |random| {
        let layout = any_layout(random);
        let volume = any_volume(random, &layout);
        let other = any_number(random);
        let reserved = random.pick(&[layout.reserved, layout.reserved, 0, other]);
        match query(&volume, reserved) {
            Err(refusal) => {
                let mut staging = any_staging(random, &layout);
                let answer = calls::open(&volume, reserved, &mut staging);
                assert_eq!(answer, Err(refusal));
            }
            Ok(queried) => {
                let length = queried.staging_length;
                match calls::open(&volume, reserved, &mut vec![7; length]) {
                    Ok(opened) => assert_eq!(opened.state.layout, queried.layout),
                    Err(refusal) => assert_ne!(refusal, Refusal::LengthOrState),
                }
                let answer = calls::open(&volume, reserved, &mut vec![7; length + 1]);
                assert_eq!(answer, Err(Refusal::LengthOrState));
            }
        }
    });
}

/// What a check of a whole volume must find, told by open, steps and reads.
fn checked_by_calls(volume: &[u8], reserved: u64) -> Result<(u64, Vec<u64>), Refusal> {
    let mut volume = volume.to_vec();
    // Staging's length follows from T, which may be anything.
    let mut answer = Err(Refusal::LengthOrState);
    let mut staging = vec![];
    for sectors in [88, 104, 128, 168] {
        staging = vec![0; sectors * 512];
        answer = calls::open(&volume, reserved, &mut staging);
        if answer != Err(Refusal::LengthOrState) {
            break;
        }
    }
    let opened = answer?;
    let mut state = opened.state;
    assert_eq!(
        steps(&mut state, &mut volume, &mut staging),
        (opened.stores_to_come, None)
    );
    let bad = (0..state.layout.provided).filter(|sector| {
        let answer = calls::read(&state, &volume, &staging, *sector, &mut [0; 512]);
        let sector = *sector;
        assert!(answer.is_ok() || answer == Err(Refusal::Tag { sector }));
        answer.is_err()
    });
    Ok((opened.stores_to_come, bad.collect()))
}

#[test]
fn check_at_once() {
    cases(1_000, |random| {
        let layout = any_layout(random);
        let mut volume = any_volume(random, &layout);
        // Bad sectors: bytes of the runs, at the volume's end.
        for _ in 0..random.length(0..=3) {
            let length = volume.len();
            if length > 0 {
                let place = length - 1 - random.length(0..=(length - 1).min(30 * 512));
                volume[place] = random.number() as u8;
            }
        }
        let answer = check(&volume, layout.reserved, TagRule::Digest);
        let expected = checked_by_calls(&volume, layout.reserved);
        assert_eq!(
            answer.map(|checked| (checked.stores, checked.bad)),
            expected
        );
    });
}
