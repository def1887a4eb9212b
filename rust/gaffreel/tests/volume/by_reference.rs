//! The functions of `gaffreel::ffi` as the reference has them: the C interface's rules for buffers, then its calls.

use crate::loans::DONE;
use gaffreel::volume::{ANSWER_LENGTH, LAYOUT_LENGTH, STATE_LENGTH};
use reference::volume::{self, Flushed, Layout, Phase, Refusal, Said, State, Stepped, TagRule};

const WRONG_LENGTH: u32 = 1;

/// The place of the first of a layout's numbers that have no meaning yet; the last three have none.
pub const UNUSED: usize = 5;

/// The places of a state's numbers behind those of its layout: the phase, the two of its place, the entries of the batch,
/// the next id.
pub const PHASE: usize = 8;
pub const FIRST: usize = 9;
pub const SECOND: usize = 10;
pub const COUNT: usize = 11;
pub const ID: usize = 12;

/// The numbers of a state.
pub type StateNumbers = [u64; 13];

/// The numbers of the phases.
pub const FILLING: u64 = 0;
pub const COMMITTING: u64 = 1;
pub const WRITING_BACK: u64 = 2;
pub const RECOVERING: u64 = 3;

/// The numbers that a call which is carried out leaves in the answer's buffer.
type Numbers = [u64; 5];

pub fn volume_format(
    volume: &mut [u8],
    reserved: usize,
    shift: usize,
    width: usize,
    sections: usize,
    provided: usize,
    answer: &mut [u8],
) -> u32 {
    let layout = layout(reserved, shift, width, sections, provided);
    format_by(TagRule::Digest, volume, &layout, answer)
}

#[allow(clippy::too_many_arguments)] // those of the C interface
pub fn volume_format_keyed(
    volume: &mut [u8],
    reserved: usize,
    shift: usize,
    width: usize,
    sections: usize,
    provided: usize,
    key: &[u8],
    answer: &mut [u8],
) -> u32 {
    let layout = layout(reserved, shift, width, sections, provided);
    format_by(TagRule::Hmac(key), volume, &layout, answer)
}

fn layout(reserved: usize, shift: usize, width: usize, sections: usize, provided: usize) -> Layout {
    Layout {
        reserved: reserved as u64,
        log2_run: shift as u64,
        tag_size: width as u64,
        sections: sections as u64,
        provided: provided as u64,
    }
}

fn format_by(rule: TagRule, volume: &mut [u8], layout: &Layout, answer: &mut [u8]) -> u32 {
    if answer.len() != ANSWER_LENGTH {
        return WRONG_LENGTH;
    }
    let formatted = volume::format(volume, layout, rule);
    reply(answer, formatted.map(|()| [0; 5]))
}

pub fn volume_query(volume: &[u8], reserved: usize, layout: &mut [u8], answer: &mut [u8]) -> u32 {
    if answer.len() != ANSWER_LENGTH {
        return WRONG_LENGTH;
    }
    if layout.len() != LAYOUT_LENGTH {
        return reply(answer, Err(Refusal::LengthOrState));
    }
    let queried = volume::query(volume, reserved as u64).map(|queried| {
        put_numbers(layout, &layout_numbers(&queried.layout));
        [queried.staging_length as u64, 0, 0, 0, 0]
    });
    reply(answer, queried)
}

pub fn volume_open(
    volume: &[u8],
    staging: &mut [u8],
    reserved: usize,
    state: &mut [u8],
    answer: &mut [u8],
) -> u32 {
    open_by(TagRule::Digest, volume, staging, reserved, state, answer)
}

pub fn volume_open_keyed(
    volume: &[u8],
    staging: &mut [u8],
    reserved: usize,
    key: &[u8],
    state: &mut [u8],
    answer: &mut [u8],
) -> u32 {
    open_by(TagRule::Hmac(key), volume, staging, reserved, state, answer)
}

fn open_by(
    rule: TagRule,
    volume: &[u8],
    staging: &mut [u8],
    reserved: usize,
    state: &mut [u8],
    answer: &mut [u8],
) -> u32 {
    if answer.len() != ANSWER_LENGTH {
        return WRONG_LENGTH;
    }
    if state.len() != STATE_LENGTH {
        return reply(answer, Err(Refusal::LengthOrState));
    }
    let opened = volume::open(volume, reserved as u64, staging, rule).map(|opened| {
        put_state(state, &opened.state);
        [opened.stores_to_come, 0, 0, 0, 0]
    });
    reply(answer, opened)
}

pub fn volume_write(
    state: &mut [u8],
    staging: &mut [u8],
    sector: usize,
    bytes: &[u8],
    answer: &mut [u8],
) -> u32 {
    on(state, answer, |state| {
        volume::write(state, staging, sector as u64, bytes, TagRule::Digest).map(|()| [0; 5])
    })
}

pub fn volume_write_keyed(
    state: &mut [u8],
    staging: &mut [u8],
    sector: usize,
    bytes: &[u8],
    key: &[u8],
    answer: &mut [u8],
) -> u32 {
    on(state, answer, |state| {
        volume::write(state, staging, sector as u64, bytes, TagRule::Hmac(key)).map(|()| [0; 5])
    })
}

pub fn volume_flush(state: &mut [u8], answer: &mut [u8]) -> u32 {
    on(state, answer, |state| {
        volume::flush(state).map(|flushed| match flushed {
            Flushed::Acknowledged => [1, 0, 0, 0, 0],
            Flushed::Committing => [0; 5],
        })
    })
}

pub fn volume_step(
    state: &mut [u8],
    volume: &mut [u8],
    staging: &mut [u8],
    answer: &mut [u8],
) -> u32 {
    on(state, answer, |state| {
        volume::step(state, volume, staging).map(step_numbers)
    })
}

pub fn volume_next_store(
    state: &mut [u8],
    volume: &[u8],
    staging: &mut [u8],
    bytes: &mut [u8],
    answer: &mut [u8],
) -> u32 {
    on(state, answer, |state| {
        volume::next_store(state, volume, staging, bytes).map(step_numbers)
    })
}

pub fn volume_advance(
    state: &mut [u8],
    volume: &mut [u8],
    staging: &mut [u8],
    steps: usize,
    answer: &mut [u8],
) -> u32 {
    // No step, and so no test of the state.
    if steps == 0 && answer.len() == ANSWER_LENGTH && holds_state(state) {
        return reply(answer, Ok([0; 5]));
    }
    let mut counts = [0; 2];
    let number = on(state, answer, |state| {
        let advanced = volume::advance(state, volume, staging, steps as u64);
        counts = [advanced.done, u64::from(advanced.acknowledged)];
        advanced.last.map(step_numbers)
    });
    // A refused advance has them too.
    if answer.len() == ANSWER_LENGTH {
        put_numbers(&mut answer[24..], &counts);
    }
    number
}

pub fn volume_read(
    state: &[u8],
    volume: &[u8],
    staging: &[u8],
    sector: usize,
    bytes: &mut [u8],
    answer: &mut [u8],
) -> u32 {
    on(&mut state.to_vec(), answer, |state| {
        let rule = TagRule::Digest;
        volume::read(state, volume, staging, sector as u64, bytes, rule).map(|()| [0; 5])
    })
}

pub fn volume_read_keyed(
    state: &[u8],
    volume: &[u8],
    staging: &[u8],
    sector: usize,
    bytes: &mut [u8],
    key: &[u8],
    answer: &mut [u8],
) -> u32 {
    on(&mut state.to_vec(), answer, |state| {
        let rule = TagRule::Hmac(key);
        volume::read(state, volume, staging, sector as u64, bytes, rule).map(|()| [0; 5])
    })
}

pub fn volume_verify(
    state: &[u8],
    volume: &[u8],
    first: usize,
    count: usize,
    answer: &mut [u8],
) -> u32 {
    on(&mut state.to_vec(), answer, |state| {
        volume::verify(state, volume, first as u64, count as u64, TagRule::Digest).map(|()| [0; 5])
    })
}

pub fn volume_verify_keyed(
    state: &[u8],
    volume: &[u8],
    first: usize,
    count: usize,
    key: &[u8],
    answer: &mut [u8],
) -> u32 {
    on(&mut state.to_vec(), answer, |state| {
        let rule = TagRule::Hmac(key);
        volume::verify(state, volume, first as u64, count as u64, rule).map(|()| [0; 5])
    })
}

/// Makes a call on the state in a buffer.
fn on(
    buffer: &mut [u8],
    answer: &mut [u8],
    call: impl FnOnce(&mut State) -> Result<Numbers, Refusal>,
) -> u32 {
    if answer.len() != ANSWER_LENGTH {
        return WRONG_LENGTH;
    }
    let outcome = state_in(buffer).and_then(|mut state| {
        let outcome = call(&mut state);
        put_state(buffer, &state);
        outcome
    });
    reply(answer, outcome)
}

/// Writes what a call said to the answer's buffer, and gives its number.
fn reply(answer: &mut [u8], outcome: Result<Numbers, Refusal>) -> u32 {
    let (number, numbers) = match outcome {
        Ok(numbers) => (DONE, numbers),
        Err(refusal) => {
            let values = refusal.values();
            let mut numbers = [values.len() as u64, 0, 0, 0, 0];
            numbers[1..][..values.len()].copy_from_slice(&values);
            (refusal.number(), numbers)
        }
    };
    put_numbers(answer, &numbers);
    number
}

fn step_numbers(stepped: Stepped) -> Numbers {
    let said = match stepped.said {
        Said::Nothing => 0,
        Said::Acknowledged => 1,
        Said::Filling => 2,
    };
    match stepped.stored {
        None => [0, 0, said, 0, 0],
        Some(sector) => [1, sector, said, 0, 0],
    }
}

/// The numbers of a layout, which are the first of a state.
pub fn layout_numbers(layout: &Layout) -> [u64; 8] {
    [
        layout.reserved,
        layout.log2_run,
        layout.tag_size,
        layout.sections,
        layout.provided,
        0,
        0,
        0,
    ]
}

/// Whether a buffer holds a state: it has the length, numbers that have no meaning yet are 0, its phase is 0 to 3, and place
/// numbers that the phase lacks are 0.
pub fn holds_state(buffer: &[u8]) -> bool {
    let numbers = numbers_in(buffer);
    buffer.len() == STATE_LENGTH
        && numbers[UNUSED..PHASE] == [0, 0, 0]
        && matches!(
            numbers[PHASE..=SECOND],
            [0, 0, 0] | [1, _, 0] | [2, _, _] | [3, _, 0]
        )
}

/// The layout in the numbers of a state.
pub fn layout_in(numbers: &[u64]) -> Layout {
    Layout {
        reserved: numbers[0],
        log2_run: numbers[1],
        tag_size: numbers[2],
        sections: numbers[3],
        provided: numbers[4],
    }
}

/// The state in a buffer. Refused if there is none.
fn state_in(buffer: &[u8]) -> Result<State, Refusal> {
    if !holds_state(buffer) {
        return Err(Refusal::LengthOrState);
    }
    let numbers = numbers_in(buffer);
    let (first, second) = (numbers[FIRST], numbers[SECOND]);
    let phase = match numbers[PHASE] {
        FILLING => Phase::Filling,
        COMMITTING => Phase::Committing { sector: first },
        WRITING_BACK => Phase::WritingBack {
            entry: first,
            store: second,
        },
        _ => Phase::Recovering { store: first },
    };
    Ok(State {
        layout: layout_in(&numbers),
        phase,
        count: numbers[COUNT],
        id: numbers[ID],
    })
}

/// Writes a state to a buffer of its length.
pub fn put_state(buffer: &mut [u8], state: &State) {
    let place = match state.phase {
        Phase::Filling => [FILLING, 0, 0],
        Phase::Committing { sector } => [COMMITTING, sector, 0],
        Phase::WritingBack { entry, store } => [WRITING_BACK, entry, store],
        Phase::Recovering { store } => [RECOVERING, store, 0],
    };
    let layout = layout_numbers(&state.layout);
    let behind = [state.count, state.id];
    put_numbers(buffer, &[&layout[..], &place, &behind].concat());
}

/// The numbers in a buffer.
pub fn numbers_in(buffer: &[u8]) -> Vec<u64> {
    let (numbers, _) = buffer.as_chunks();
    numbers.iter().copied().map(u64::from_le_bytes).collect()
}

/// Writes numbers to the start of a buffer.
pub fn put_numbers(buffer: &mut [u8], numbers: &[u64]) {
    for (part, number) in buffer.chunks_exact_mut(8).zip(numbers) {
        part.copy_from_slice(&number.to_le_bytes());
    }
}
