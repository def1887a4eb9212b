//! The order of refusals. Each call has its faults in the header's order, each with its number. Every two of them at once,
//! with any of the later ones: the first answers. So each fault answers alone, and before each later one.

use crate::buffers::wrong_length;
use crate::by_reference::{layout_numbers, numbers_in, put_numbers, StateNumbers};
use crate::by_reference::{COMMITTING, FILLING, RECOVERING, WRITING_BACK};
use crate::by_reference::{COUNT, FIRST, ID, PHASE, SECOND, UNUSED};
use crate::loans::{Loans, DONE};
use gaffreel::volume::{ANSWER_LENGTH, LAYOUT_LENGTH, SECTOR_LENGTH, STATE_LENGTH};
use random::{cases, Lent, Random};
use reference::volume::{Geometry, Layout, TagRule};
use volumes::any::with_tag_across_sectors;
use volumes::keyed::{any_key, other_key, retag, wrong_key_length};
use volumes::kinds::stores_to_replay;
use volumes::{empty_staging, entry_place, formatted, geometry, stores_of, tag_place};
use volumes::{put_id, put_ids, put_section, section, Entry};

/// What a call is given.
#[derive(Clone)]
struct Input {
    geometry: Geometry,
    volume: Vec<u8>,
    staging: Vec<u8>,
    state: StateNumbers,
    /// The lengths of the other buffers.
    state_length: usize,
    bytes_length: usize,
    layout_length: usize,
    answer_length: usize,
    /// The arguments.
    layout: Layout,
    reserved: u64,
    /// The sector, or the first of them, and how many they are.
    sector: u64,
    count: u64,
    steps: u64,
    key: Option<Vec<u8>>,
}

/// A fault and the number that it is refused with.
type Fault = (u32, fn(&mut Random, &mut Input));

/// The entry that has the faults of entries.
const ENTRY: usize = 1;

/// An open volume of two sections, each whole and in its place, with a batch of three in staging. In half of the volumes the tag of
/// the second entry lies across two sectors.
fn good(random: &mut Random) -> Input {
    let layout = Layout {
        reserved: random.pick(&[0, 1, 64]),
        log2_run: random.pick(&[3, 4]),
        // None so short that a tag may fit other data, or under another key, by chance.
        tag_size: random.length(4..=32) as u64,
        sections: 2,
        provided: random.length(4..=12) as u64,
    };
    let (layout, second) = match random.number() % 2 {
        0 => (layout, 2),
        _ => {
            let mut layout = with_tag_across_sectors(random, layout);
            // None so short here either: a run with a tag of 3 bytes across two sectors has one of 5 bytes too.
            layout.tag_size = layout.tag_size.max(5);
            // The last sector is in no batch.
            layout.provided += 1;
            (layout, 512 / layout.tag_size)
        }
    };
    let geometry = geometry(&layout);
    let entries = [0, second, 1].map(|sector| Entry::new(sector, random.number() as u8));
    let mut volume = formatted(&layout, 0);
    for number in 0..2 {
        let bytes = section(&geometry, number as u64 + 1, &entries);
        put_section(&mut volume, &geometry, number, &bytes);
    }
    let mut state = [0; 13];
    state[..PHASE].copy_from_slice(&layout_numbers(&layout));
    state[PHASE..].copy_from_slice(&[FILLING, 0, 0, 0, 3]);
    Input {
        geometry,
        volume,
        staging: section(&geometry, 0, &entries),
        state,
        state_length: STATE_LENGTH,
        bytes_length: SECTOR_LENGTH,
        layout_length: LAYOUT_LENGTH,
        answer_length: ANSWER_LENGTH,
        layout,
        reserved: layout.reserved,
        sector: layout.provided - 1,
        count: 1,
        steps: random.pick(&[2, 3, u64::MAX]),
        key: None,
    }
}

/// The same with a key.
fn good_with_key(random: &mut Random) -> Input {
    let mut input = good(random);
    let key = any_key(random);
    retag(&mut input.volume, &input.layout, TagRule::Hmac(&key));
    input.key = Some(key);
    input
}

fn lent(random: &mut Random, input: &Input) -> Loans {
    let mut loans = Loans::new(random, &input.volume, &input.staging);
    let mut state = random.bytes(input.state_length.max(STATE_LENGTH));
    put_numbers(&mut state, &input.state);
    state.truncate(input.state_length);
    loans.lend(|lent| &mut lent.state, &Lent::of(random, &state));
    let bytes = Lent::new(random, input.bytes_length);
    loans.lend(|lent| &mut lent.bytes, &bytes);
    let layout = Lent::new(random, input.layout_length);
    loans.lend(|lent| &mut lent.layout, &layout);
    let answer = Lent::new(random, input.answer_length);
    loans.lend(|lent| &mut lent.answer, &answer);
    loans.put_key(random, input.key.as_deref());
    loans
}

const ANSWER: Fault = (1, |random, input| {
    input.answer_length = wrong_length(random, ANSWER_LENGTH);
});

const STATE: Fault = (1, |random, input| {
    input.state_length = wrong_length(random, STATE_LENGTH);
});

const LAYOUT: Fault = (1, |random, input| {
    input.layout_length = wrong_length(random, LAYOUT_LENGTH);
});

const BYTES: Fault = (1, |random, input| {
    input.bytes_length = wrong_length(random, SECTOR_LENGTH);
});

const STAGING: Fault = (1, |random, input| {
    let length = wrong_length(random, input.geometry.staging_length());
    input.staging.resize(length, 7);
});

/// The volume is not whole sectors.
const PART_OF_A_SECTOR: Fault = (1, |random, input| {
    let length = input.volume.len() + random.length(1..=511);
    input.volume.resize(length, 7);
});

/// The key is empty or too long.
const KEY: Fault = (2, |random, input| {
    let length = wrong_key_length(random);
    input.key = Some(random.bytes(length));
});

/// Another key than the one that the tags were made with.
const WRONG_KEY: Fault = (7, |random, input| {
    let key = input.key.take().expect("the call has a key");
    input.key = Some(other_key(random, &key));
});

const UNSOUND: Fault = (1, |random, input| {
    let (place, number) = random.pick(&[
        (0, 65),
        (1, 2),
        (2, 0),
        (2, 33),
        (3, 0),
        (4, 65_537),
        (UNUSED, 1),
        (PHASE, 4),
        (SECOND, 3),
        (COUNT, 1 << 32),
        (ID, 0),
    ]);
    input.state[place] = number;
});

/// The state's layout is longer than the volume.
const SHORT_FOR_STATE: Fault = (1, |random, input| shorten(random, input));

/// In a recovery only: beyond its last store.
const STORE: Fault = (1, |random, input| {
    let stores = stores_to_replay(&input.volume, &input.geometry).len() as u64;
    input.state[PHASE..=COUNT].copy_from_slice(&[RECOVERING, stores, 0, 0]);
    input.state[FIRST] += random.pick(&[0, 1, 1 << 32]);
});

/// In writing back only: the third store of an entry that has two. For calls that look at the staged entry.
const THIRD_STORE: Fault = (1, |_, input| {
    input.state[PHASE..=COUNT].copy_from_slice(&[WRITING_BACK, 0, 2, 3]);
});

/// Shorter than the layout, with room for the superblock.
fn shorten(random: &mut Random, input: &mut Input) {
    let least = input.geometry.reserved + 8;
    let any = random.length(least..=input.geometry.sectors - 1);
    let sectors = random.pick(&[least, any, input.geometry.sectors - 1]);
    input.volume.truncate(sectors * 512);
}

const SHORT: Fault = (5, |random, input| shorten(random, input));

const NO_ROOM_FOR_SUPERBLOCK: Fault = (5, |random, input| {
    let sectors = random.length(0..=input.geometry.reserved + 7);
    input.volume.truncate(sectors * 512);
});

const RESERVED: Fault = (2, |random, input| {
    input.reserved = random.pick(&[65, 1 << 32, u64::MAX]);
});

const PARAMETER: Fault = (2, |random, input| {
    let layout = &mut input.layout;
    match random.number() % 5 {
        0 => layout.reserved = random.pick(&[65, 1 << 32, u64::MAX]),
        1 => layout.log2_run = random.pick(&[0, 2, 16, 64, 259]),
        2 => layout.tag_size = random.pick(&[0, 33, 64, 256 + 20, (1 << 32) + 8]),
        3 => layout.sections = random.pick(&[0, 65, (1 << 32) + 1]),
        _ => layout.provided = random.pick(&[0, 65_537, (1 << 32) + 1]),
    }
});

fn superblock(input: &mut Input) -> &mut [u8] {
    let start = input.geometry.reserved * 512;
    let end = input.volume.len().min(start + 8 * 512);
    &mut input.volume[start.min(end)..end]
}

const SUPERBLOCK_NOT_ZERO: Fault = (3, |random, input| {
    let place = random.length(0..=8 * 512 - 1);
    superblock(input)[place] = 1;
});

const SUPERBLOCK_ZERO: Fault = (3, |_, input| superblock(input).fill(0));

const SUPERBLOCK_NOT_VALID: Fault = (4, |random, input| {
    let behind = random.length(24..=8 * 512 - 1);
    let place = random.pick(&[0, 7, 8, 9, 10, 11, 15, 23, behind]);
    superblock(input)[place] ^= 0x80;
});

/// An odd id goes to the first section.
const MISPLACED: Fault = (11, |random, input| {
    let id = random.pick(&[1, 3, 5, u64::MAX - 2]);
    put_ids(&mut input.volume, &input.geometry, 1, id);
});

/// One sector has the last id, or, where a section is misplaced, all of that section: it is so with this id too.
const LAST_ID: Fault = (10, |random, input| {
    let place = input.geometry.journal() + input.geometry.section_sectors;
    let misplaced = input.volume[place * 512 + 504] % 2 == 1;
    match misplaced {
        true => put_ids(&mut input.volume, &input.geometry, 1, u64::MAX),
        false => {
            let sector = random.length(0..=input.geometry.section_sectors - 1);
            put_id(&mut input.volume, &input.geometry, 1, sector, u64::MAX);
        }
    }
});

/// A number above those of the sectors provided; none that marks an unused entry.
fn not_provided(random: &mut Random, input: &Input) -> u64 {
    let provided = input.geometry.provided as u64;
    random.pick(&[provided, provided + 1, 1 << 32, u64::MAX - 1])
}

/// Has the entry of a section name a sector that is not provided; it has as many stores as before.
fn put_not_provided(random: &mut Random, geometry: &Geometry, section: &mut [u8]) {
    let (run, provided) = (geometry.run as u64, geometry.provided as u64);
    let sector = &mut section[entry_place(geometry, ENTRY)..][..8];
    let next = provided.div_ceil(run);
    let runs = random.pick(&[next, next + 1, 1 << 32, u64::MAX / run]);
    put_numbers(sector, &[runs * run + numbers_in(sector)[0] % run]);
}

/// The first section of the journal, which is replayed first.
fn first_section(input: &mut Input) -> &mut [u8] {
    let length = input.geometry.staging_length();
    &mut input.volume[input.geometry.journal() * 512..][..length]
}

const JOURNAL_TAG: Fault = (7, |random, input| {
    let geometry = input.geometry;
    let byte = random.length(0..=geometry.tag_size - 1);
    first_section(input)[tag_place(&geometry, ENTRY)][byte] ^= 1;
});

const JOURNAL_SECTOR: Fault = (6, |random, input| {
    let geometry = input.geometry;
    put_not_provided(random, &geometry, first_section(input));
});

/// The entry at hand names a sector that is not provided: in staging, or in the journal where the phase is recovering.
const ENTRY_AT_HAND: Fault = (6, |random, input| {
    if input.state[PHASE] == RECOVERING {
        return JOURNAL_SECTOR.1(random, input);
    }
    put_not_provided(random, &input.geometry, &mut input.staging);
});

const SECTOR: Fault = (6, |random, input| {
    let sector = not_provided(random, input);
    input.sector = random.pick(&[sector, u64::MAX]);
});

/// Sectors of which not all are provided, or, where there is none, that begin behind them.
const RANGE: Fault = (6, |random, input| {
    let provided = input.geometry.provided as u64;
    let beyond = not_provided(random, input);
    (input.sector, input.count) = random.pick(&[
        (0, provided + 1),
        (provided - 1, 2),
        (provided, 1),
        (provided + 1, 0),
        (beyond, 1),
        (0, beyond + 1),
        (1, u64::MAX),
        (u64::MAX, 0),
        (u64::MAX, 1),
        (u64::MAX, u64::MAX),
    ]);
});

const FULL: Fault = (8, |_, input| {
    input.state[COUNT] = input.geometry.entries as u64
});

const LAST_ID_OF_STATE: Fault = (10, |_, input| {
    input.state[COUNT] = 2;
    input.state[ID] = u64::MAX;
});

/// A phase that is sound with the count and the id for calls that do not look at the staged entries: any of them may have a third
/// store.
const NOT_FILLING: Fault = (9, |random, input| {
    let phase = match (input.state[COUNT], input.state[ID]) {
        (0, _) => RECOVERING,
        (_, u64::MAX) => WRITING_BACK,
        _ => random.pick(&[COMMITTING, WRITING_BACK]),
    };
    input.state[PHASE] = phase;
    if phase == WRITING_BACK {
        input.state[SECOND] = random.number() % 3;
    }
});

const IN_RECOVERY: Fault = (9, |random, input| {
    input.state[PHASE..=COUNT].copy_from_slice(&[RECOVERING, 0, 0, 0]);
    let stores = stores_to_replay(&input.volume, &input.geometry).len() as u64;
    input.state[FIRST] = random.number() % stores;
});

/// No tag fits: the runs have other bytes.
const TAGS: Fault = (7, |_, input| {
    let base = input.geometry.base * 512;
    input.volume[base..].fill(0xee);
});

/// Makes a call with no fault, then with every two.
fn every_two(
    random: &mut Random,
    good: &Input,
    faults: &[Fault],
    call: impl Fn(&mut Loans, &Input) -> u32,
) {
    assert_eq!(call(&mut lent(random, good), good), DONE);
    for first in 0..faults.len() {
        for second in first..faults.len() {
            let any = random.number() & random.number();
            let mut input = good.clone();
            // The last comes first, so that no volume is cut before its bytes are changed.
            for (place, (_, fault)) in faults.iter().enumerate().rev() {
                let later = place > first && any >> place & 1 == 1;
                if place == first || place == second || later {
                    fault(random, &mut input);
                }
            }
            let number = call(&mut lent(random, &input), &input);
            assert_eq!(number, faults[first].0, "faults {first} and {second}");
        }
    }
}

#[test]
fn of_format() {
    cases(200, |random| {
        let mut input = good(random);
        superblock(&mut input).fill(0);
        let faults = [
            ANSWER,
            PART_OF_A_SECTOR,
            PARAMETER,
            SHORT,
            SUPERBLOCK_NOT_ZERO,
        ];
        every_two(random, &input, &faults, |loans, input| {
            loans.format(&input.layout)
        });
    });
}

/// The faults of a volume and its superblock.
const OF_SUPERBLOCK: [Fault; 6] = [
    PART_OF_A_SECTOR,
    RESERVED,
    NO_ROOM_FOR_SUPERBLOCK,
    SUPERBLOCK_ZERO,
    SUPERBLOCK_NOT_VALID,
    SHORT,
];

#[test]
fn of_query() {
    cases(150, |random| {
        let faults = [&[ANSWER, LAYOUT][..], &OF_SUPERBLOCK].concat();
        let input = good(random);
        every_two(random, &input, &faults, |loans, input| {
            loans.query(input.reserved)
        });
    });
}

#[test]
fn of_open() {
    cases(60, |random| {
        let of_journal = [STAGING, LAST_ID, MISPLACED, JOURNAL_SECTOR, JOURNAL_TAG];
        let faults = [&[ANSWER, STATE][..], &OF_SUPERBLOCK, &of_journal].concat();
        let mut input = good(random);
        input.staging = empty_staging(&input.geometry);
        every_two(random, &input, &faults, |loans, input| {
            loans.open(input.reserved)
        });
    });
}

#[test]
fn of_write() {
    cases(150, |random| {
        let lengths = [ANSWER, STATE, UNSOUND, STAGING, BYTES];
        let faults = [&lengths[..], &[NOT_FILLING, SECTOR, FULL]].concat();
        let input = good(random);
        every_two(random, &input, &faults, |loans, input| {
            loans.write(input.sector)
        });
    });
}

#[test]
fn of_flush() {
    cases(200, |random| {
        let faults = [ANSWER, STATE, UNSOUND, NOT_FILLING, LAST_ID_OF_STATE];
        let input = good(random);
        every_two(random, &input, &faults, |loans, _| loans.flush());
    });
}

/// At the entry that has the faults, in staging or in the journal.
fn at_the_entry(random: &mut Random) -> Input {
    let mut input = good(random);
    let geometry = &input.geometry;
    let second = numbers_in(&input.staging[entry_place(geometry, ENTRY)..][..8])[0];
    let store = random.number() % stores_of(geometry, second);
    let place = match random.number() % 2 {
        0 => [WRITING_BACK, ENTRY as u64, store, 3],
        // Behind the first entry's two.
        _ => [RECOVERING, 2 + store, 0, 0],
    };
    input.state[PHASE..=COUNT].copy_from_slice(&place);
    input
}

const OF_STEP: [Fault; 9] = [
    ANSWER,
    STATE,
    UNSOUND,
    PART_OF_A_SECTOR,
    SHORT_FOR_STATE,
    STAGING,
    STORE,
    THIRD_STORE,
    ENTRY_AT_HAND,
];

#[test]
fn of_step() {
    cases(150, |random| {
        let input = at_the_entry(random);
        every_two(random, &input, &OF_STEP, |loans, _| loans.step());
    });
}

#[test]
fn of_next_store() {
    cases(150, |random| {
        let (first, others) = OF_STEP.split_at(2);
        let faults = [first, &[BYTES], others].concat();
        let input = at_the_entry(random);
        every_two(random, &input, &faults, |loans, _| loans.next_store());
    });
}

#[test]
fn of_advance() {
    cases(150, |random| {
        let input = at_the_entry(random);
        every_two(random, &input, &OF_STEP, |loans, input| {
            loans.advance(input.steps)
        });
    });
}

#[test]
fn of_read() {
    cases(100, |random| {
        let lengths = [ANSWER, STATE, UNSOUND, PART_OF_A_SECTOR, SHORT_FOR_STATE];
        let others = [STAGING, BYTES, STORE, THIRD_STORE];
        let others = [&others[..], &[IN_RECOVERY, SECTOR, TAGS]].concat();
        let faults = [&lengths[..], &others].concat();
        let mut input = good(random);
        input.state[COUNT] = random.number() % 4;
        every_two(random, &input, &faults, |loans, input| {
            loans.read(input.sector)
        });
    });
}

/// Sectors that are provided, at least one, and any number of entries in the batch.
fn with_sectors(random: &mut Random, mut input: Input) -> Input {
    let provided = input.layout.provided;
    input.sector = random.number() % provided;
    input.count = 1 + random.number() % (provided - input.sector);
    input.state[COUNT] = random.number() % 4;
    input
}

const LENGTHS_OF_VERIFY: [Fault; 6] = [
    ANSWER,
    STATE,
    UNSOUND,
    PART_OF_A_SECTOR,
    SHORT_FOR_STATE,
    STORE,
];

#[test]
fn of_verify() {
    cases(150, |random| {
        let faults = [&LENGTHS_OF_VERIFY[..], &[NOT_FILLING, RANGE, TAGS]].concat();
        let input = good(random);
        let input = with_sectors(random, input);
        every_two(random, &input, &faults, |loans, input| {
            loans.verify(input.sector, input.count)
        });
    });
}

#[test]
fn of_format_with_a_key() {
    cases(200, |random| {
        let mut input = good_with_key(random);
        superblock(&mut input).fill(0);
        let faults = [
            ANSWER,
            PART_OF_A_SECTOR,
            KEY,
            PARAMETER,
            SHORT,
            SUPERBLOCK_NOT_ZERO,
        ];
        every_two(random, &input, &faults, |loans, input| {
            loans.format(&input.layout)
        });
    });
}

#[test]
fn of_open_with_a_key() {
    cases(60, |random| {
        let (volume, others) = OF_SUPERBLOCK.split_at(1);
        // A wrong key shows at the first entry to be replayed, the other faults are those of the second.
        let of_journal = [
            STAGING,
            LAST_ID,
            MISPLACED,
            WRONG_KEY,
            JOURNAL_SECTOR,
            JOURNAL_TAG,
        ];
        let faults = [&[ANSWER, STATE], volume, &[KEY], others, &of_journal].concat();
        let mut input = good_with_key(random);
        input.staging = empty_staging(&input.geometry);
        every_two(random, &input, &faults, |loans, input| {
            loans.open(input.reserved)
        });
    });
}

#[test]
fn of_write_with_a_key() {
    cases(150, |random| {
        let lengths = [ANSWER, STATE, UNSOUND, STAGING, BYTES];
        let faults = [&lengths[..], &[KEY, NOT_FILLING, SECTOR, FULL]].concat();
        let input = good_with_key(random);
        every_two(random, &input, &faults, |loans, input| {
            loans.write(input.sector)
        });
    });
}

#[test]
fn of_read_with_a_key() {
    cases(100, |random| {
        let lengths = [ANSWER, STATE, UNSOUND, PART_OF_A_SECTOR, SHORT_FOR_STATE];
        let others = [STAGING, BYTES, STORE, THIRD_STORE];
        let behind = [KEY, IN_RECOVERY, SECTOR, TAGS, WRONG_KEY];
        let faults = [&lengths[..], &others, &behind].concat();
        let mut input = good_with_key(random);
        input.state[COUNT] = random.number() % 4;
        every_two(random, &input, &faults, |loans, input| {
            loans.read(input.sector)
        });
    });
}

#[test]
fn of_verify_with_a_key() {
    cases(150, |random| {
        let others = [KEY, NOT_FILLING, RANGE, TAGS, WRONG_KEY];
        let faults = [&LENGTHS_OF_VERIFY[..], &others].concat();
        let input = good_with_key(random);
        let input = with_sectors(random, input);
        every_two(random, &input, &faults, |loans, input| {
            loans.verify(input.sector, input.count)
        });
    });
}
