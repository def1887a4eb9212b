//! So many steps at once against as many single ones, and a whole recovery against the reference's.

use crate::any_input::any_loans;
use crate::by_reference::put_state;
use crate::loans::{Buffers, Loans, DONE};
use gaffreel::ffi;
use gaffreel::volume::STATE_LENGTH;
use random::{cases, count_compared, Random};
use reference::volume::{self, Layout, Phase, State, TagRule};
use volumes::any::{any_layout, any_section, small_layout, with_journal};
use volumes::{empty_staging, formatted, geometry, section, Entry};

/// The bit of what a step says that acknowledges the batch.
const ACKNOWLEDGED: u64 = 1;

/// The number where a sector is not provided.
const SECTOR_RANGE: u32 = 6;

/// A section of it has 88 sectors, and the tag of sector 17 lies across two.
const LAYOUT: Layout = Layout {
    reserved: 0,
    log2_run: 5,
    tag_size: 30,
    sections: 2,
    provided: 18,
};

/// A step by the proved library: its number, and the first three of its answer.
fn step(lent: &mut Buffers) -> (u32, [u64; 3]) {
    let number = ffi::volume_step(
        lent.state.buffer(),
        lent.volume.buffer(),
        lent.staging.buffer(),
        lent.answer.buffer(),
    );
    let answer = lent.answer();
    (number, [answer[0], answer[1], answer[2]])
}

/// Takes so many single steps, and advances by as many; all by the proved library.
fn same_as_single_steps(loans: &Loans, steps: u64) {
    let mut stepped = loans.lent().clone();
    let mut number = DONE;
    let mut expected = [0; 5];
    let (mut done, mut acknowledged) = (0, 0);
    for _ in 0..steps {
        let (last, [first, second, third]) = step(&mut stepped);
        number = last;
        if number == DONE {
            done += u64::from(first != 0);
            acknowledged |= u64::from(third & ACKNOWLEDGED != 0);
        }
        expected = [first, second, third, done, acknowledged];
    }
    let mut advanced = loans.lent().clone();
    let answer = ffi::volume_advance(
        advanced.state.buffer(),
        advanced.volume.buffer(),
        advanced.staging.buffer(),
        steps as usize,
        advanced.answer.buffer(),
    );
    assert_eq!(answer, number);
    assert_eq!(advanced.answer(), expected);
    advanced.answer = stepped.answer.clone();
    advanced.assert_same(&stepped, "single steps and", "advance");
    count_compared();
}

/// A state that is sound on a volume, or nearly.
fn any_place(random: &mut Random, state: &mut State, section_sectors: u64) {
    state.count = random.number() % 4;
    state.phase = match random.number() % 4 {
        0 => Phase::Filling,
        1 => Phase::Committing {
            sector: section_sectors - random.number() % 6,
        },
        2 => Phase::WritingBack {
            entry: random.number() % 4,
            store: random.pick(&[0, 1, 2, 2, 3]),
        },
        _ => {
            state.count = 0;
            Phase::Recovering {
                store: random.number() % 6,
            }
        }
    };
}

/// Journal and staging of any kind, with a state that is sound on them, or nearly.
pub fn nearly_sound(random: &mut Random) -> Loans {
    let layout = small_layout(random);
    let geometry = geometry(&layout);
    let volume = with_journal(random, &layout);
    let staging = any_section(random, &layout, &geometry, 0);
    let mut loans = Loans::new(random, &volume, &staging);
    let mut state = State {
        layout,
        phase: Phase::Filling,
        count: 0,
        id: random.pick(&[1, 7, u64::MAX - 1, u64::MAX]),
    };
    any_place(random, &mut state, geometry.section_sectors as u64);
    loans.put_state(&state);
    loans
}

#[test]
fn advance_is_single_steps() {
    cases(2_000, |random| {
        let mut loans = nearly_sound(random);
        let steps = match random.number() % 3 {
            0 => random.number() % 3,
            1 => random.number() % 16,
            _ => random.number() % 400,
        };
        same_as_single_steps(&loans, steps);
        loans.advance(steps);
    });
}

#[test]
fn advance_of_any_input() {
    cases(1_000, |random| {
        let layout = any_layout(random);
        let loans = any_loans(random, &layout);
        same_as_single_steps(&loans, random.number() % 8);
    });
}

/// A whole batch: every number of steps up to its end and beyond.
#[test]
fn each_number_of_steps() {
    cases(1, |random| {
        let geometry = geometry(&LAYOUT);
        let staging = empty_staging(&geometry);
        let mut loans = Loans::new(random, &formatted(&LAYOUT, 0), &staging);
        assert_eq!(loans.open(0), DONE);
        for sector in [17, 3] {
            assert_eq!(loans.write(sector), DONE);
        }
        assert_eq!(loans.flush(), DONE);
        // 88 stores commit the batch, 3 and 2 write it back.
        for steps in 0..=95 {
            same_as_single_steps(&loans, steps);
            let mut advanced = loans.clone();
            assert_eq!(advanced.advance(steps), DONE);
            let stores = steps.min(93);
            let answer = advanced.answer();
            assert_eq!(answer[3..], [stores, u64::from(steps >= 88)]);
        }
    });
}

/// The same where the last entry names a sector that is not provided: an advance that is refused counts the steps before.
#[test]
fn each_number_of_steps_up_to_a_refused_one() {
    cases(1, |random| {
        let geometry = geometry(&LAYOUT);
        let entries = [17, 3, 18].map(|sector| Entry::new(sector, 1));
        let staging = section(&geometry, 0, &entries);
        let mut loans = Loans::new(random, &formatted(&LAYOUT, 0), &staging);
        loans.put_state(&State {
            layout: LAYOUT,
            phase: Phase::Committing { sector: 0 },
            count: 3,
            id: 1,
        });
        // 88 stores commit the batch, 3 and 2 write its first two entries back.
        for steps in 0..=95 {
            same_as_single_steps(&loans, steps);
            let mut advanced = loans.clone();
            let number = advanced.advance(steps);
            let answer = advanced.answer();
            assert_eq!(answer[3..], [steps.min(93), u64::from(steps >= 88)]);
            if steps <= 93 {
                assert_eq!(number, DONE);
            } else {
                assert_eq!((number, &answer[..3]), (SECTOR_RANGE, &[1, 2, 0][..]));
            }
        }
    });
}

/// Where open is taken, an advance beyond the recovery's end leaves what the reference's recovery at once leaves.
#[test]
fn whole_recoveries() {
    cases(600, |random| {
        let layout = small_layout(random);
        let staging = empty_staging(&geometry(&layout));
        let volume = with_journal(random, &layout);
        let mut expected = volume.clone();
        let rule = TagRule::Digest;
        let Ok(opened) = volume::open(&volume, layout.reserved, &mut staging.clone(), rule) else {
            return;
        };
        let mut state = opened.state;
        let stores = volume::recover(&mut state, &mut expected, &staging);
        assert_eq!(stores, Ok(opened.stores_to_come));

        let mut loans = Loans::new(random, &volume, &staging);
        assert_eq!(loans.open(layout.reserved), DONE);
        assert_eq!(loans.advance(u64::MAX), DONE);
        assert_eq!(loans.answer(), [0, 0, 2, opened.stores_to_come, 0]);
        assert!(loans.lent().volume.bytes() == expected);
        let mut expected_state = [0; STATE_LENGTH];
        put_state(&mut expected_state, &state);
        assert_eq!(loans.lent().state.bytes(), expected_state);
    });
}
