//! Single calls on states that are sound or not. Each clause of soundness (document 01, "Working a volume", document 02, order 4,
//! and the header on a state's bytes) is told here from the numbers of a state: a call refuses a state with 1 if and only if a
//! clause that it tests is broken. Asked of the states: that each clause is broken alone, many times, for each call, and that the
//! entry at hand is written back in two and in three stores.

use crate::by_reference::{layout_in, layout_numbers, numbers_in, put_numbers, StateNumbers};
use crate::by_reference::{COMMITTING, FILLING, RECOVERING, WRITING_BACK};
use crate::by_reference::{COUNT, FIRST, ID, PHASE, SECOND, UNUSED};
use crate::loans::{Loans, DONE};
use gaffreel::volume::STATE_LENGTH;
use random::{cases, Random, Reached};
use reference::volume::{Geometry, Layout};
use volumes::any::{any_number, any_range, any_section, any_tag_size};
use volumes::any::{with_journal, with_tag_across_sectors};
use volumes::keyed::{any_key, wrong_key_length};
use volumes::kinds::stores_to_replay;
use volumes::tag_sizes::TagSizes;
use volumes::{entry_place, geometry, stores_of};

const LENGTH_OR_STATE: u32 = 1;
const OUT_OF_RANGE: u32 = 2;

/// What makes a state one that is not sound.
#[derive(Clone, Copy, Debug, PartialEq, Eq, PartialOrd, Ord)]
enum Clause {
    /// A number that has no meaning yet is not 0.
    Unused,
    /// There is no such phase.
    Phase,
    /// A number of the place that the phase lacks is not 0.
    Place,
    /// A number of the layout is out of range.
    Layout,
    /// More entries than a section has.
    Count,
    /// The id is 0.
    Id,
    /// Committing beyond a section's end.
    CommittingSector,
    /// Committing an empty batch.
    CommittingNothing,
    /// Committing with the id 2^64 - 1.
    CommittingLastId,
    /// Writing an entry back that is not in the batch.
    Entry,
    /// An entry has at most three stores.
    Store,
    /// The staged entry has two stores.
    ThirdStore,
    /// Recovering with a batch.
    RecoveringBatch,
    /// Recovering beyond the replay's end.
    RecoveringStore,
    /// The volume is shorter than the layout.
    ShortVolume,
}

/// The clauses that write and flush test.
const OF_STATES: [Clause; 12] = [
    Clause::Unused,
    Clause::Phase,
    Clause::Place,
    Clause::Layout,
    Clause::Count,
    Clause::Id,
    Clause::CommittingSector,
    Clause::CommittingNothing,
    Clause::CommittingLastId,
    Clause::Entry,
    Clause::Store,
    Clause::RecoveringBatch,
];

/// The clauses that steps, read and verify test too.
const ON_VOLUMES: [Clause; 2] = [Clause::RecoveringStore, Clause::ShortVolume];

/// The clause that steps and read test too. Write does not, though staging is lent to it.
const IN_STAGING: Clause = Clause::ThirdStore;

/// The calls that are given a state.
const CALLS: [&str; 7] = [
    "write",
    "flush",
    "step",
    "next_store",
    "advance",
    "read",
    "verify",
];

/// Whether a call tests a clause.
fn tests(name: &str, clause: Clause) -> bool {
    match name {
        "write" | "flush" => clause != IN_STAGING && !ON_VOLUMES.contains(&clause),
        "verify" => clause != IN_STAGING,
        _ => true,
    }
}

/// The clauses that a state breaks, with a volume and staging.
fn broken(numbers: &StateNumbers, volume: &[u8], staging: &[u8]) -> Vec<Clause> {
    let [_, _, _, _, _, unused @ .., phase, first, second, count, id] = *numbers;
    let mut rows = vec![
        (Clause::Unused, unused != [0; 3]),
        (Clause::Phase, phase > 3),
        (Clause::Place, phase == FILLING && first != 0),
        (
            Clause::Place,
            phase <= 3 && phase != WRITING_BACK && second != 0,
        ),
        (Clause::Id, id == 0),
        (Clause::CommittingNothing, phase == COMMITTING && count == 0),
        (
            Clause::CommittingLastId,
            phase == COMMITTING && id == u64::MAX,
        ),
        (Clause::Entry, phase == WRITING_BACK && first >= count),
        (Clause::Store, phase == WRITING_BACK && second > 2),
        (Clause::RecoveringBatch, phase == RECOVERING && count != 0),
    ];
    match layout_in(numbers).geometry() {
        None => rows.push((Clause::Layout, true)),
        Some(geometry) => {
            let sectors = geometry.section_sectors as u64;
            let third = third_store(numbers, staging, &geometry);
            rows.push((Clause::ThirdStore, third == Some(false)));
            rows.push((Clause::Count, count > geometry.entries as u64));
            rows.push((
                Clause::CommittingSector,
                phase == COMMITTING && first >= sectors,
            ));
            rows.push(on_volume(numbers, volume, &geometry));
        }
    }
    let mut broken: Vec<Clause> = rows
        .into_iter()
        .filter(|row| row.1)
        .map(|row| row.0)
        .collect();
    broken.dedup();
    broken
}

/// Whether the staged entry at hand has a third store, if that is the one that comes next.
fn third_store(numbers: &StateNumbers, staging: &[u8], geometry: &Geometry) -> Option<bool> {
    let entry = usize::try_from(numbers[FIRST]).ok()?;
    let there = staging.len() == geometry.staging_length() && entry < geometry.entries;
    if !there || numbers[PHASE] != WRITING_BACK || numbers[SECOND] != 2 {
        return None;
    }
    Some(staged_stores(staging, geometry, entry) == 3)
}

/// How many stores write a staged entry back.
fn staged_stores(staging: &[u8], geometry: &Geometry, entry: usize) -> u64 {
    let place = entry_place(geometry, entry);
    let sector = numbers_in(&staging[place..place + 8])[0];
    stores_of(geometry, sector)
}

fn on_volume(numbers: &StateNumbers, volume: &[u8], geometry: &Geometry) -> (Clause, bool) {
    if volume.len() < geometry.sectors * 512 {
        return (Clause::ShortVolume, true);
    }
    let recovering = numbers[PHASE] == RECOVERING;
    let beyond = || numbers[FIRST] >= stores_to_replay(volume, geometry).len() as u64;
    (Clause::RecoveringStore, recovering && beyond())
}

/// A sound state; a recovery is sound only if the journal has something to replay.
fn sound(random: &mut Random, layout: &Layout, volume: &[u8], staging: &[u8]) -> StateNumbers {
    let geometry = geometry(layout);
    let (entries, sectors) = (geometry.entries as u64, geometry.section_sectors as u64);
    let id = random.pick(&[1, 2, 7, u64::MAX - 2, u64::MAX - 1]);
    let count = random.pick(&[1, 2, 3, entries]);
    let stores = stores_to_replay(volume, &geometry).len() as u64;
    let any_id = random.pick(&[id, u64::MAX]);
    let place = match random.number() % 4 {
        0 => [FILLING, 0, 0, random.pick(&[0, count]), any_id],
        1 => [COMMITTING, random.number() % sectors, 0, count, id],
        2 => {
            let entry = random.number() % count;
            let stores = staged_stores(staging, &geometry, entry as usize);
            [WRITING_BACK, entry, random.number() % stores, count, any_id]
        }
        _ => [RECOVERING, random.number() % stores.max(1), 0, 0, id],
    };
    let mut numbers = [0; 13];
    numbers[..PHASE].copy_from_slice(&layout_numbers(layout));
    numbers[PHASE..].copy_from_slice(&place);
    numbers
}

/// Breaks a clause, or replaces a number by any.
fn spoil(random: &mut Random, numbers: &mut StateNumbers, geometry: &Geometry) {
    let (place, number) = match (random.number() % 17, numbers[PHASE]) {
        (0, _) => (PHASE, random.pick(&[4, 5, 1 << 8, 1 << 32, u64::MAX])),
        (1, FILLING) => (FIRST, random.pick(&[1, 1 << 32, u64::MAX])),
        (1 | 2, WRITING_BACK) => (SECOND, random.pick(&[2, 2, 3, 1 << 32, u64::MAX])),
        (1 | 2, _) => (SECOND, random.pick(&[1, 2, 1 << 63])),
        (3, _) => (0, random.pick(&[65, u64::MAX])),
        (4, _) => (1, random.pick(&[2, 16, 64, 67])),
        (5, _) => (2, random.pick(&[0, 33, 64, 256 + 20, 1 << 32])),
        (6, _) => (3, random.pick(&[0, 65, 1 << 32])),
        (7, _) => (4, random.pick(&[0, 1 << 16, (1 << 16) + 1, u64::MAX])),
        (8 | 9, RECOVERING) => (FIRST, any_number(random)),
        (8, _) => (
            COUNT,
            geometry.entries as u64 + random.pick(&[1, 2, 1 << 32]),
        ),
        (9, COMMITTING) => (COUNT, 0),
        (9, _) => (COUNT, any_number(random)),
        (10, _) => (ID, 0),
        (11, COMMITTING) => (ID, u64::MAX),
        (11, _) => (4, random.pick(&[100, 65_536])),
        (12, COMMITTING) => (FIRST, geometry.section_sectors as u64 + random.number() % 3),
        (12, WRITING_BACK) => (FIRST, numbers[COUNT].saturating_add(random.number() % 3)),
        (12 | 13, RECOVERING) => (COUNT, random.pick(&[1, 80, u64::MAX])),
        (13, _) => (
            random.length(UNUSED..=PHASE - 1),
            random.pick(&[1, 1 << 8, 1 << 63]),
        ),
        _ => (random.length(FIRST..=ID), any_number(random)),
    };
    numbers[place] = number;
}

/// Few sectors, seldom any number of them.
fn verify(random: &mut Random, loans: &mut Loans) -> u32 {
    let (first, count) = any_range(random, 12);
    loans.verify(first, count)
}

/// One call on a state, and whether its answer is as the broken clauses say.
fn call(random: &mut Random, loans: &mut Loans, name: &'static str, broken: &[Clause]) {
    let sector = random.number() % 14;
    let number = match name {
        "write" => loans.write(sector),
        "flush" => loans.flush(),
        "step" => loans.step(),
        "next_store" => loans.next_store(),
        "advance" => loans.advance(random.pick(&[1, 2, 3, u64::MAX])),
        "read" => loans.read(sector),
        _ => verify(random, loans),
    };
    let refused = broken.iter().any(|clause| tests(name, *clause));
    assert_eq!(number == LENGTH_OR_STATE, refused, "{name} on {broken:?}");
}

/// The same of the calls with a key: a state that is not sound is refused before the key is, and any other behind it.
fn call_with_a_key(random: &mut Random, loans: &mut Loans, name: &'static str, broken: &[Clause]) {
    if !["write", "read", "verify"].contains(&name) {
        return;
    }
    let key = any_key(random);
    loans.put_key(random, Some(&key));
    call(random, &mut loans.clone(), name, broken);
    let refused_key = vec![5; wrong_key_length(random)];
    loans.put_key(random, Some(&refused_key));
    let sound = !broken.iter().any(|clause| tests(name, *clause));
    let sector = random.number() % 14;
    let number = match name {
        "write" => loans.write(sector),
        "read" => loans.read(sector),
        _ => verify(random, loans),
    };
    let expected = if sound { OUT_OF_RANGE } else { LENGTH_OR_STATE };
    assert_eq!(number, expected, "{name} on {broken:?}");
    loans.put_key(random, None);
}

/// An advance of no steps tests whether there is a state, and no more.
fn no_steps(loans: &mut Loans, broken: &[Clause]) {
    let none = [Clause::Unused, Clause::Phase, Clause::Place];
    let refused = broken.iter().any(|clause| none.contains(clause));
    let number = loans.advance(0);
    assert_eq!(number, if refused { LENGTH_OR_STATE } else { DONE });
}

/// What is to be said of a state.
#[derive(Clone, Copy, Debug, PartialEq, Eq, PartialOrd, Ord)]
enum Kind {
    Sound,
    /// Sound, with the third store of a staged entry coming next.
    SoundThirdStore,
    /// The clause is broken, and no other is.
    Alone(Clause),
}

/// State and staging are put back before each call: those that are taken change them.
fn each_call(
    random: &mut Random,
    loans: &mut Loans,
    reached: &mut Reached<(Kind, &'static str)>,
    numbers: &StateNumbers,
) {
    let mut state = [0; STATE_LENGTH];
    put_numbers(&mut state, numbers);
    let staging = loans.lent().staging.clone();
    for name in CALLS {
        loans.put(|lent| &mut lent.state, 0, &state);
        loans.put(|lent| &mut lent.staging, 0, staging.bytes());
        let broken = broken(numbers, loans.lent().volume.bytes(), staging.bytes());
        if name == CALLS[0] {
            no_steps(loans, &broken);
        }
        call_with_a_key(random, loans, name, &broken);
        call(random, loans, name, &broken);
        let third_store = numbers[PHASE] == WRITING_BACK && numbers[SECOND] == 2;
        match broken[..] {
            [] if third_store => reached.add((Kind::SoundThirdStore, name)),
            [] => reached.add((Kind::Sound, name)),
            [alone] => reached.add((Kind::Alone(alone), name)),
            _ => {}
        }
    }
}

#[test]
fn sound_states_and_others() {
    let mut reached = Reached::new();
    let mut sizes = TagSizes::new();
    cases(1_200, |random| {
        let layout = Layout {
            reserved: random.pick(&[0, 1]),
            log2_run: 3,
            tag_size: any_tag_size(random),
            sections: random.pick(&[1, 2]),
            provided: random.length(1..=12) as u64,
        };
        let layout = match random.number() % 2 {
            0 => with_tag_across_sectors(random, layout),
            _ => layout,
        };
        sizes.add(&layout);
        let geometry = geometry(&layout);
        let volume = with_journal(random, &layout);
        let staging = any_section(random, &layout, &geometry, 0);
        let mut loans = Loans::new(random, &volume, &staging);
        for _ in 0..50 {
            let (volume, staging) = (&loans.lent().volume, &loans.lent().staging);
            let mut numbers = sound(random, &layout, volume.bytes(), staging.bytes());
            for _ in 0..random.pick(&[0, 1, 1, 1, 1, 2]) {
                spoil(random, &mut numbers, &geometry);
            }
            each_call(random, &mut loans, &mut reached, &numbers);
        }
    });
    for name in CALLS {
        let clauses = OF_STATES.into_iter().chain(ON_VOLUMES).chain([IN_STAGING]);
        let kinds = [Kind::Sound, Kind::SoundThirdStore].into_iter();
        let kinds = kinds.chain(clauses.map(Kind::Alone));
        reached.assert_each(100, kinds.map(|kind| (kind, name)));
    }
    sizes.assert_all(100);
}
