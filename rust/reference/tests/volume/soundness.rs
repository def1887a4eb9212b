//! When a state and what is lent with it are sound. All else is refused with 1.

use crate::calls;
use crate::setting::{committing, filling, filling_with, in_phase, writing_back};
use crate::setting::{LAYOUT, SECTORS, STAGING};
use reference::volume::{verify, Layout, Phase, Refusal, State, TagRule, VOLUME_LIMIT};
use volumes::{empty_staging, formatted, geometry, Entry};

const LENGTH_OR_STATE: Refusal = Refusal::LengthOrState;

/// States that no call takes.
fn unsound() -> Vec<State> {
    let with_layout = |layout| State {
        layout,
        ..filling()
    };
    let id_used_up = State {
        id: u64::MAX,
        ..committing(0)
    };
    let mut states = vec![
        with_layout(Layout {
            reserved: 65,
            ..LAYOUT
        }),
        with_layout(Layout {
            log2_run: 2,
            ..LAYOUT
        }),
        with_layout(Layout {
            log2_run: 16,
            ..LAYOUT
        }),
        with_layout(Layout {
            tag_size: 0,
            ..LAYOUT
        }),
        with_layout(Layout {
            tag_size: 33,
            ..LAYOUT
        }),
        with_layout(Layout {
            sections: 0,
            ..LAYOUT
        }),
        with_layout(Layout {
            sections: 65,
            ..LAYOUT
        }),
        with_layout(Layout {
            provided: 0,
            ..LAYOUT
        }),
        with_layout(Layout {
            provided: 65_537,
            ..LAYOUT
        }),
        filling_with(81),
        filling_with(u64::MAX),
        State { id: 0, ..filling() },
        committing(88),
        committing(u64::MAX),
        id_used_up,
        in_phase(Phase::Committing { sector: 0 }, 0),
        in_phase(Phase::Committing { sector: 0 }, 81),
        writing_back(0, 0),
        writing_back(3, 3),
        writing_back(80, 81),
        writing_back(u64::MAX, u64::MAX),
        in_phase(Phase::Recovering { store: 0 }, 1),
    ];
    let other_stores: Vec<State> = states
        .iter()
        .filter_map(|state| match state.phase {
            Phase::WritingBack { entry, .. } => Some((entry, state.count)),
            _ => None,
        })
        .flat_map(|(entry, count)| {
            [1, 2].map(|store| in_phase(Phase::WritingBack { entry, store }, count))
        })
        .collect();
    states.extend(other_stores);
    // No entry has a fourth store.
    for store in [3, 4, 1 << 32, u64::MAX] {
        states.push(in_phase(Phase::WritingBack { entry: 0, store }, 1));
    }
    states
}

#[test]
fn unsound_states() {
    let mut volume = formatted(&LAYOUT, 0);
    let mut staging = empty_staging(&geometry(&LAYOUT));
    for mut state in unsound() {
        // With a bad sector too: 1 comes before 9 and 6.
        let answer = calls::write(&mut state, &mut staging, 10, &[0; 512]);
        assert_eq!(answer, Err(LENGTH_OR_STATE), "{state:?}");
        assert_eq!(calls::flush(&mut state), Err(LENGTH_OR_STATE), "{state:?}");
        let answer = calls::step(&mut state, &mut volume, &mut staging);
        assert_eq!(answer, Err(LENGTH_OR_STATE), "{state:?}");
        let answer = calls::read(&state, &volume, &staging, 10, &mut [0; 512]);
        assert_eq!(answer, Err(LENGTH_OR_STATE), "{state:?}");
        let answer = verify(&state, &volume, 11, 0, TagRule::Digest);
        assert_eq!(answer, Err(LENGTH_OR_STATE), "{state:?}");
        let answer = calls::recover(&mut state, &mut volume, &staging);
        assert_eq!(answer, Err(LENGTH_OR_STATE), "{state:?}");
    }
}

/// Sound at the edges of each rule.
#[test]
fn sound_states() {
    let id_used_up = State {
        id: u64::MAX,
        ..writing_back(79, 80)
    };
    let last_id = State {
        id: u64::MAX - 1,
        ..committing(87)
    };
    for state in [filling_with(80), id_used_up, last_id, committing(0)] {
        let mut volume = formatted(&LAYOUT, 0);
        let mut staging = volumes::section(&geometry(&LAYOUT), 0, &[Entry::new(9, 1); 80]);
        let mut stepped = state;
        assert!(calls::step(&mut stepped, &mut volume, &mut staging).is_ok());
        assert!(calls::flush(&mut stepped) != Err(LENGTH_OR_STATE));
    }
}

/// A layout above the limit of a volume: write and flush don't test the volume.
#[test]
fn layout_above_the_limit() {
    let layout = Layout {
        provided: 65_536,
        ..LAYOUT
    };
    let mut state = State {
        layout,
        ..filling()
    };
    let mut staging = empty_staging(&geometry(&layout));
    let mut volume = vec![0; VOLUME_LIMIT * 512];
    let answer = calls::write(&mut state, &mut staging, 65_535, &[1; 512]);
    assert_eq!(answer, Ok(()));
    let answer = calls::read(&state, &volume, &staging, 65_535, &mut [0; 512]);
    assert_eq!(answer, Err(LENGTH_OR_STATE));
    assert!(calls::flush(&mut state).is_ok());
    let answer = calls::step(&mut state, &mut volume, &mut staging);
    assert_eq!(answer, Err(LENGTH_OR_STATE));
}

/// Volumes and staging that step and read refuse with 1, before anything else.
#[test]
fn lengths_for_step_and_read() {
    let beyond = Entry::new(10, 1);
    let staged = volumes::section(&geometry(&LAYOUT), 0, &[beyond]);
    let mut whole = formatted(&LAYOUT, 1);
    whole.push(0);
    let lengths = [
        (0, STAGING, 512),
        (SECTORS * 512 - 1, STAGING, 512),
        ((SECTORS - 1) * 512, STAGING, 512),
        (SECTORS * 512 + 1, STAGING, 512),
        (SECTORS * 512, STAGING - 512, 512),
        (SECTORS * 512, STAGING - 1, 512),
        (SECTORS * 512, STAGING, 511),
        (SECTORS * 512, STAGING, 0),
    ];
    for (volume, staging, out) in lengths {
        let mut volume = whole[..volume].to_vec();
        let mut staging = staged[..staging].to_vec();
        let mut state = writing_back(0, 1);
        if out == 512 {
            let answer = calls::step(&mut state, &mut volume, &mut staging);
            assert_eq!(answer, Err(LENGTH_OR_STATE));
        }
        let answer = calls::read(&state, &volume, &staging, 10, &mut vec![0; out]);
        assert_eq!(answer, Err(LENGTH_OR_STATE));
    }
    let mut over = vec![0; (VOLUME_LIMIT + 1) * 512];
    let answer = calls::step(&mut filling(), &mut over, &mut staged.clone());
    assert_eq!(answer, Err(LENGTH_OR_STATE));
}
