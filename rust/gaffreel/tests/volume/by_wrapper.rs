//! The functions of `gaffreel::ffi` by the safe wrapper; none where a buffer holds what it cannot be given.

use crate::by_reference::put_numbers;
use gaffreel::volume::{self, Flushed, Layout, Opened, Said, State, Stepped};
use gaffreel::volume::{ANSWER_LENGTH, LAYOUT_LENGTH, STATE_LENGTH};
use gaffreel::Refusal;

pub fn volume_format(
    volume: &mut [u8],
    reserved: usize,
    shift: usize,
    width: usize,
    sections: usize,
    provided: usize,
    answer: &mut [u8],
) -> Option<u32> {
    let answer = answer_in(answer)?;
    let layout = layout(reserved, shift, width, sections, provided);
    let formatted = volume::format(volume, &layout);
    assert_ne!(formatted, Err(Refusal::SuperblockZero));
    Some(reply(answer, formatted.map(|()| [0; 5])))
}

#[allow(clippy::too_many_arguments)] // those of the C interface
pub fn volume_format_keyed(
    volume: &mut [u8],
    reserved: usize,
    shift: usize,
    width: usize,
    sections: usize,
    provided: usize,
    key: &[u8],
    answer: &mut [u8],
) -> Option<u32> {
    let answer = answer_in(answer)?;
    let layout = layout(reserved, shift, width, sections, provided);
    let formatted = volume::format_keyed(volume, &layout, key);
    assert_ne!(formatted, Err(Refusal::SuperblockZero));
    Some(reply(answer, formatted.map(|()| [0; 5])))
}

fn layout(reserved: usize, shift: usize, width: usize, sections: usize, provided: usize) -> Layout {
    Layout {
        reserved: reserved as u64,
        log2_run: shift as u64,
        tag_size: width as u64,
        sections: sections as u64,
        provided: provided as u64,
    }
}

pub fn volume_query(
    volume: &[u8],
    reserved: usize,
    layout: &mut [u8],
    answer: &mut [u8],
) -> Option<u32> {
    let answer = answer_in(answer)?;
    let layout: &mut [u8; LAYOUT_LENGTH] = layout.try_into().ok()?;
    let queried = volume::query(volume, reserved as u64);
    assert_ne!(queried, Err(Refusal::SuperblockNotZero));
    let numbers = queried.map(|queried| {
        *layout = queried.layout.to_bytes();
        [queried.staging_length as u64, 0, 0, 0, 0]
    });
    Some(reply(answer, numbers))
}

pub fn volume_open(
    volume: &[u8],
    staging: &mut [u8],
    reserved: usize,
    state: &mut [u8],
    answer: &mut [u8],
) -> Option<u32> {
    let answer = answer_in(answer)?;
    let state: &mut [u8; STATE_LENGTH] = state.try_into().ok()?;
    let opened = volume::open(volume, reserved as u64, staging);
    Some(reply(answer, opened_numbers(opened, state)))
}

pub fn volume_open_keyed(
    volume: &[u8],
    staging: &mut [u8],
    reserved: usize,
    key: &[u8],
    state: &mut [u8],
    answer: &mut [u8],
) -> Option<u32> {
    let answer = answer_in(answer)?;
    let state: &mut [u8; STATE_LENGTH] = state.try_into().ok()?;
    let opened = volume::open_keyed(volume, reserved as u64, staging, key);
    Some(reply(answer, opened_numbers(opened, state)))
}

/// What an open leaves in the answer's buffer; its state goes to the state's.
fn opened_numbers(
    opened: Result<Opened, Refusal>,
    state: &mut [u8; STATE_LENGTH],
) -> Result<[u64; 5], Refusal> {
    assert_ne!(opened, Err(Refusal::SuperblockNotZero));
    opened.map(|opened| {
        *state = opened.state.to_bytes();
        [opened.stores_to_come, 0, 0, 0, 0]
    })
}

pub fn volume_write(
    state: &mut [u8],
    staging: &mut [u8],
    sector: usize,
    bytes: &[u8],
    answer: &mut [u8],
) -> Option<u32> {
    let answer = answer_in(answer)?;
    let written = on(state, |state| {
        volume::write(state, staging, sector as u64, bytes)
    });
    Some(reply(answer, written?.map(|()| [0; 5])))
}

pub fn volume_write_keyed(
    state: &mut [u8],
    staging: &mut [u8],
    sector: usize,
    bytes: &[u8],
    key: &[u8],
    answer: &mut [u8],
) -> Option<u32> {
    let answer = answer_in(answer)?;
    let written = on(state, |state| {
        volume::write_keyed(state, staging, sector as u64, bytes, key)
    })?;
    Some(reply(answer, written.map(|()| [0; 5])))
}

pub fn volume_flush(state: &mut [u8], answer: &mut [u8]) -> Option<u32> {
    let answer = answer_in(answer)?;
    let numbers = on(state, volume::flush)?.map(|flushed| match flushed {
        Flushed::Acknowledged => [1, 0, 0, 0, 0],
        Flushed::Committing => [0; 5],
    });
    Some(reply(answer, numbers))
}

pub fn volume_step(
    state: &mut [u8],
    volume: &mut [u8],
    staging: &mut [u8],
    answer: &mut [u8],
) -> Option<u32> {
    let answer = answer_in(answer)?;
    let stepped = on(state, |state| volume::step(state, volume, staging))?;
    Some(reply(answer, stepped.map(step_numbers)))
}

pub fn volume_next_store(
    state: &mut [u8],
    volume: &[u8],
    staging: &mut [u8],
    bytes: &mut [u8],
    answer: &mut [u8],
) -> Option<u32> {
    let answer = answer_in(answer)?;
    let told = on(state, |state| {
        volume::next_store(state, volume, staging, bytes)
    })?;
    Some(reply(answer, told.map(step_numbers)))
}

pub fn volume_advance(
    state: &mut [u8],
    volume: &mut [u8],
    staging: &mut [u8],
    steps: usize,
    answer: &mut [u8],
) -> Option<u32> {
    let answer = answer_in(answer)?;
    let advanced = on(state, |state| {
        volume::advance(state, volume, staging, steps as u64)
    })?;
    let (done, acknowledged) = match advanced {
        Ok(advanced) => (advanced.done, advanced.acknowledged),
        Err(stopped) => (stopped.done, stopped.acknowledged),
    };
    let last = advanced.map(|advanced| step_numbers(advanced.last));
    let number = reply(answer, last.map_err(Refusal::from));
    put_numbers(&mut answer[24..], &[done, u64::from(acknowledged)]);
    Some(number)
}

pub fn volume_read(
    state: &[u8],
    volume: &[u8],
    staging: &[u8],
    sector: usize,
    bytes: &mut [u8],
    answer: &mut [u8],
) -> Option<u32> {
    let answer = answer_in(answer)?;
    let read = on(&mut state.to_vec(), |state| {
        volume::read(state, volume, staging, sector as u64, bytes)
    });
    Some(reply(answer, read?.map(|()| [0; 5])))
}

pub fn volume_read_keyed(
    state: &[u8],
    volume: &[u8],
    staging: &[u8],
    sector: usize,
    bytes: &mut [u8],
    key: &[u8],
    answer: &mut [u8],
) -> Option<u32> {
    let answer = answer_in(answer)?;
    let read = on(&mut state.to_vec(), |state| {
        volume::read_keyed(state, volume, staging, sector as u64, bytes, key)
    })?;
    Some(reply(answer, read.map(|()| [0; 5])))
}

pub fn volume_verify(
    state: &[u8],
    volume: &[u8],
    first: usize,
    count: usize,
    answer: &mut [u8],
) -> Option<u32> {
    let answer = answer_in(answer)?;
    let verified = on(&mut state.to_vec(), |state| {
        volume::verify(state, volume, first as u64, count as u64)
    })?;
    Some(reply(answer, verified.map(|()| [0; 5])))
}

pub fn volume_verify_keyed(
    state: &[u8],
    volume: &[u8],
    first: usize,
    count: usize,
    key: &[u8],
    answer: &mut [u8],
) -> Option<u32> {
    let answer = answer_in(answer)?;
    let verified = on(&mut state.to_vec(), |state| {
        volume::verify_keyed(state, volume, first as u64, count as u64, key)
    })?;
    Some(reply(answer, verified.map(|()| [0; 5])))
}

/// Makes a call on the state in a buffer, if there is one.
fn on<Answer>(buffer: &mut [u8], call: impl FnOnce(&mut State) -> Answer) -> Option<Answer> {
    let buffer: &mut [u8; STATE_LENGTH] = buffer.try_into().ok()?;
    let mut state = State::from_bytes(*buffer)?;
    let answer = call(&mut state);
    *buffer = state.to_bytes();
    Some(answer)
}

/// An answer's buffer, if it has the length.
fn answer_in(answer: &mut [u8]) -> Option<&mut [u8; ANSWER_LENGTH]> {
    answer.try_into().ok()
}

/// Writes what a call said to the answer's buffer, and gives its number.
fn reply(answer: &mut [u8; ANSWER_LENGTH], outcome: Result<[u64; 5], Refusal>) -> u32 {
    let (number, numbers) = match outcome {
        Ok(numbers) => (0, numbers),
        Err(refusal) => {
            // Of a volume, and so of 64 bits each.
            let values = refusal.values().into_iter().map(|value| value as u64);
            let mut numbers = [values.len() as u64, 0, 0, 0, 0];
            for (number, value) in numbers[1..].iter_mut().zip(values) {
                *number = value;
            }
            (refusal.number(), numbers)
        }
    };
    put_numbers(answer, &numbers);
    number
}

fn step_numbers(stepped: Stepped) -> [u64; 5] {
    let said = match stepped.said {
        Said::Nothing => 0,
        Said::Acknowledged => 1,
        Said::Filling => 2,
    };
    let stored = u64::from(stepped.stored.is_some());
    [stored, stepped.stored.unwrap_or(0), said, 0, 0]
}
