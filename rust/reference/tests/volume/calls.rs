//! The calls, each with a check of what it changed: nothing if it was refused, else only what it may. Those that make or test a
//! tag are here by any rule too.

use reference::volume::{self, Flushed, Layout, Opened, Phase, Refusal, State, Stepped, TagRule};

pub fn format(volume: &mut [u8], layout: &Layout) -> Result<(), Refusal> {
    format_by(TagRule::Digest, volume, layout)
}

pub fn format_by(rule: TagRule, volume: &mut [u8], layout: &Layout) -> Result<(), Refusal> {
    let before = volume.to_vec();
    let answer = volume::format(volume, layout, rule);
    if answer.is_err() {
        assert_eq!(volume, before);
    }
    answer
}

pub fn open(volume: &[u8], reserved: u64, staging: &mut [u8]) -> Result<Opened, Refusal> {
    open_by(TagRule::Digest, volume, reserved, staging)
}

pub fn open_by(
    rule: TagRule,
    volume: &[u8],
    reserved: u64,
    staging: &mut [u8],
) -> Result<Opened, Refusal> {
    let before = staging.to_vec();
    let answer = volume::open(volume, reserved, staging, rule);
    if answer.is_err() {
        assert_eq!(staging, before);
    }
    answer
}

pub fn write(
    state: &mut State,
    staging: &mut [u8],
    sector: u64,
    bytes: &[u8],
) -> Result<(), Refusal> {
    write_by(TagRule::Digest, state, staging, sector, bytes)
}

pub fn write_by(
    rule: TagRule,
    state: &mut State,
    staging: &mut [u8],
    sector: u64,
    bytes: &[u8],
) -> Result<(), Refusal> {
    let before = (*state, staging.to_vec());
    let answer = volume::write(state, staging, sector, bytes, rule);
    match answer {
        Ok(()) => {
            let count = before.0.count + 1;
            assert_eq!(*state, State { count, ..before.0 });
        }
        Err(_) => assert_eq!((*state, &*staging), (before.0, &*before.1)),
    }
    answer
}

pub fn flush(state: &mut State) -> Result<Flushed, Refusal> {
    let before = *state;
    let answer = volume::flush(state);
    let phase = match answer {
        Ok(Flushed::Committing) => Phase::Committing { sector: 0 },
        Ok(Flushed::Acknowledged) | Err(_) => before.phase,
    };
    assert_eq!(*state, State { phase, ..before });
    answer
}

pub fn step(state: &mut State, volume: &mut [u8], staging: &mut [u8]) -> Result<Stepped, Refusal> {
    let before = (*state, volume.to_vec(), staging.to_vec());
    let answer = volume::step(state, volume, staging);
    match answer {
        Ok(stepped) => {
            assert_eq!(stepped.stored.is_none(), before.0.phase == Phase::Filling);
            assert_others_unchanged(&before.1, volume, stepped.stored);
        }
        Err(_) => assert_eq!((*state, &*volume), (before.0, &*before.1)),
    }
    let written_back =
        matches!(before.0.phase, Phase::WritingBack { .. }) && state.phase == Phase::Filling;
    if !written_back {
        assert_eq!(staging, before.2);
    }
    answer
}

pub fn next_store(
    state: &mut State,
    volume: &[u8],
    staging: &mut [u8],
    content: &mut [u8],
) -> Result<Stepped, Refusal> {
    let before = (*state, staging.to_vec(), content.to_vec());
    let answer = volume::next_store(state, volume, staging, content);
    if answer.is_err() {
        assert_eq!((*state, &*staging), (before.0, &*before.1));
    }
    if !matches!(answer, Ok(stepped) if stepped.stored.is_some()) {
        assert_eq!(content, before.2);
    }
    answer
}

/// All sectors but the one stored are as before.
fn assert_others_unchanged(before: &[u8], after: &[u8], stored: Option<u64>) {
    let (start, end) = match stored {
        None => (0, 0),
        Some(sector) => (sector as usize * 512, (sector as usize + 1) * 512),
    };
    let unchanged = before[..start] == after[..start] && before[end..] == after[end..];
    assert!(unchanged, "another sector than {stored:?} changed");
}

pub fn read(
    state: &State,
    volume: &[u8],
    staging: &[u8],
    sector: u64,
    out: &mut [u8],
) -> Result<(), Refusal> {
    read_by(TagRule::Digest, state, volume, staging, sector, out)
}

pub fn read_by(
    rule: TagRule,
    state: &State,
    volume: &[u8],
    staging: &[u8],
    sector: u64,
    out: &mut [u8],
) -> Result<(), Refusal> {
    let before = out.to_vec();
    let answer = volume::read(state, volume, staging, sector, out, rule);
    if answer.is_err() {
        assert_eq!(out, before);
    }
    answer
}

pub fn recover(state: &mut State, volume: &mut [u8], staging: &[u8]) -> Result<u64, Refusal> {
    let before = (*state, volume.to_vec());
    let answer = volume::recover(state, volume, staging);
    if answer.is_err() {
        assert_eq!((*state, &*volume), (before.0, &*before.1));
    }
    answer
}
