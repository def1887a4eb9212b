//! The calls with a key (document 02, order 1): the key's length and its place among the refusals, what a wrong key and a
//! missing one show, and inputs of any kind.

use crate::calls;
use crate::setting::{committing, filling, filling_with, recovering, with_sections};
use crate::setting::{LAYOUT, SECTORS, STAGING};
use random::cases;
use reference::hmac::hmac;
use reference::volume::{check, step, Layout, Opened, Refusal, State, TagRule, VOLUME_LIMIT};
use volumes::any::{any_layout, any_number, any_staging, any_state, any_volume};
use volumes::keyed::{any_key, other_key, retag, wrong_key_length, KEY_LENGTHS};
use volumes::{formatted_by, geometry, Entry};

const LENGTH_OR_STATE: Refusal = Refusal::LengthOrState;
const PARAMETER: Refusal = Refusal::Parameter;

/// A key that every call refuses with 2.
const EMPTY: TagRule = TagRule::Hmac(&[]);

fn unformatted() -> Vec<u8> {
    vec![0; SECTORS * 512]
}

fn opened(rule: TagRule, volume: &[u8]) -> Result<(Opened, Vec<u8>), Refusal> {
    let mut staging = vec![0x33; STAGING];
    let opened = calls::open_by(rule, volume, LAYOUT.reserved, &mut staging)?;
    Ok((opened, staging))
}

/// From 1 to 256 bytes each call takes a key, and no other.
#[test]
fn lengths_of_keys() {
    for length in KEY_LENGTHS.into_iter().chain([2, 128, 258, 520, 1 << 16]) {
        let key = vec![7; length];
        let rule = TagRule::Hmac(&key);
        let expected = match length {
            1..=256 => Ok(()),
            _ => Err(PARAMETER),
        };
        let mut volume = unformatted();
        assert_eq!(calls::format_by(rule, &mut volume, &LAYOUT), expected);
        assert_eq!(volume == unformatted(), expected.is_err());
        let taken = vec![7; length.clamp(1, 256)];
        let good = formatted_by(TagRule::Hmac(&taken), &LAYOUT, 0);
        check_length(rule, &good, expected);
    }
}

fn check_length(rule: TagRule, volume: &[u8], expected: Result<(), Refusal>) {
    assert_eq!(opened(rule, volume).map(|_| ()), expected);
    assert_eq!(check(volume, LAYOUT.reserved, rule).map(|_| ()), expected);
    let mut staging = vec![0; STAGING];
    let answer = calls::write_by(rule, &mut filling(), &mut staging, 5, &[1; 512]);
    assert_eq!(answer, expected);
    let answer = calls::read_by(rule, &filling(), volume, &staging, 5, &mut [1; 512]);
    assert_eq!(answer, expected);
}

#[test]
fn order_of_format() {
    let out_of_range = Layout {
        tag_size: 33,
        ..LAYOUT
    };
    for (length, layout, expected) in [
        // 1 before 2 for the key.
        (513, LAYOUT, LENGTH_OR_STATE),
        ((VOLUME_LIMIT + 1) * 512, out_of_range, LENGTH_OR_STATE),
        // 2 before 2, 5 and 3.
        (0, out_of_range, PARAMETER),
        (0, LAYOUT, PARAMETER),
        ((SECTORS - 1) * 512, LAYOUT, PARAMETER),
        (SECTORS * 512, LAYOUT, PARAMETER),
    ] {
        let mut volume = vec![1; length];
        let answer = calls::format_by(EMPTY, &mut volume, &layout);
        assert_eq!(answer, Err(expected));
    }
}

/// At open the key is tested before all but the volume's length; the other test for 1, of staging, stays late.
#[test]
fn order_of_open() {
    let whole = formatted_by(TagRule::Hmac(b"key"), &LAYOUT, 0);
    let zero = unformatted();
    let refused = |volume: &[u8], reserved, staging| {
        let mut staging = vec![0x33; staging];
        calls::open_by(EMPTY, volume, reserved, &mut staging).err()
    };
    assert_eq!(refused(&whole[..513], 65, 0), Some(LENGTH_OR_STATE));
    for (volume, reserved, staging) in [
        (&whole[..], 65, 0),
        (&whole[..0], 0, 0),
        (&zero, 2, 0),
        (&whole, 1, 0),
        (&whole[..10 * 512], 2, 0),
        (&whole, 2, STAGING - 1),
        (&whole, 2, STAGING),
    ] {
        assert_eq!(refused(volume, reserved, staging), Some(PARAMETER));
    }
    let used_up = with_sections(&[(0, u64::MAX, &[Entry::new(3, 1)])]);
    assert_eq!(refused(&used_up, 2, STAGING), Some(PARAMETER));
}

#[test]
fn order_of_write_and_read() {
    let unsound = State { id: 0, ..filling() };
    for (state, staging, bytes, expected) in [
        (unsound, STAGING, 512, LENGTH_OR_STATE),
        (filling(), STAGING - 1, 512, LENGTH_OR_STATE),
        (filling(), STAGING, 511, LENGTH_OR_STATE),
        // 2 before 9, 6, 8 and 7.
        (committing(0), STAGING, 512, PARAMETER),
        (filling(), STAGING, 512, PARAMETER),
        (filling_with(80), STAGING, 512, PARAMETER),
    ] {
        for sector in [3, 10] {
            let mut staging = vec![0x44; staging];
            let mut written = state;
            let answer =
                calls::write_by(EMPTY, &mut written, &mut staging, sector, &vec![0; bytes]);
            assert_eq!(answer, Err(expected), "{state:?}");
            // No tag fits.
            let volume = vec![0xee; SECTORS * 512];
            let mut out = vec![7; bytes];
            let answer = calls::read_by(EMPTY, &state, &volume, &staging, sector, &mut out);
            assert_eq!(answer, Err(expected), "{state:?}");
        }
    }
    let volume = with_sections(&[(0, 1, &[Entry::new(3, 1)])]);
    for (store, expected) in [(2, LENGTH_OR_STATE), (1, PARAMETER)] {
        let staging = vec![0; STAGING];
        let answer = calls::read_by(
            EMPTY,
            &recovering(store),
            &volume,
            &staging,
            3,
            &mut [7; 512],
        );
        assert_eq!(answer, Err(expected));
    }
}

/// A volume with a batch of two writes to sectors 3 and 5, after so many stores of it.
fn after_stores(rule: TagRule, stores: usize) -> Vec<u8> {
    let mut volume = unformatted();
    calls::format_by(rule, &mut volume, &LAYOUT).unwrap();
    let (opened, mut staging) = opened(rule, &volume).unwrap();
    let mut state = opened.state;
    calls::write_by(rule, &mut state, &mut staging, 3, &[1; 512]).unwrap();
    calls::write_by(rule, &mut state, &mut staging, 5, &[2; 512]).unwrap();
    calls::flush(&mut state).unwrap();
    for _ in 0..stores {
        step(&mut state, &mut volume, &mut staging).unwrap();
    }
    volume
}

/// Every byte but those of the tags is the same by both rules, and a tag is the start of the HMAC.
#[test]
fn only_tags_differ() {
    let key = [0x5a; 65];
    let by_key = after_stores(TagRule::Hmac(&key), 92);
    let mut retagged = after_stores(TagRule::Digest, 92);
    assert!(by_key != retagged);
    retag(&mut retagged, &LAYOUT, TagRule::Hmac(&key));
    assert!(by_key == retagged);
    let message = [&5u64.to_le_bytes()[..], &[2; 512]].concat();
    let home = geometry(&LAYOUT).home(5).unwrap();
    assert_eq!(by_key[home.tag..][..32], hmac(&key, &message).unwrap());
}

/// With a whole section in the journal open shows a wrong key, and that there is none; with a torn one the first read does.
#[test]
fn wrong_and_missing_keys() {
    let right = TagRule::Hmac(b"the right key");
    for wrong in [TagRule::Hmac(b"the wrong key"), TagRule::Digest] {
        for (made_by, other) in [(right, wrong), (wrong, right)] {
            let torn = after_stores(made_by, 87);
            let (opened, staging) = opened(other, &torn).unwrap();
            for sector in 0..LAYOUT.provided {
                let mut out = [9; 512];
                let answer =
                    calls::read_by(other, &opened.state, &torn, &staging, sector, &mut out);
                assert_eq!(answer, Err(Refusal::Tag { sector }));
            }
            let bad = check(&torn, LAYOUT.reserved, other).unwrap().bad;
            assert_eq!(bad.len() as u64, LAYOUT.provided);
            assert_eq!(check(&torn, LAYOUT.reserved, made_by).unwrap().bad, []);
        }
        let whole = after_stores(right, 88);
        let (section, entry) = (0, 0);
        let refusal = Refusal::JournalTag { section, entry };
        assert_eq!(opened(wrong, &whole).err(), Some(refusal));
        assert_eq!(check(&whole, LAYOUT.reserved, wrong), Err(refusal));
        assert_eq!(opened(right, &whole).unwrap().0.stores_to_come, 4);
    }
}

/// A write under a wrong key is not noticed: its sector is bad for the right key afterwards, and good for the wrong one.
#[test]
fn a_write_under_a_wrong_key() {
    let (right, wrong) = (TagRule::Hmac(b"right"), TagRule::Hmac(b"wrong"));
    let mut volume = formatted_by(right, &LAYOUT, 0);
    let (opened, mut staging) = opened(right, &volume).unwrap();
    let mut state = opened.state;
    calls::write_by(wrong, &mut state, &mut staging, 5, &[1; 512]).unwrap();
    calls::flush(&mut state).unwrap();
    for _ in 0..90 {
        calls::step(&mut state, &mut volume, &mut staging).unwrap();
    }
    for sector in 0..LAYOUT.provided {
        let read = |rule| {
            let mut out = [9; 512];
            calls::read_by(rule, &state, &volume, &staging, sector, &mut out)
        };
        let tag = Err(Refusal::Tag { sector });
        let (by_right, by_wrong) = match sector {
            5 => (tag, Ok(())),
            _ => (Ok(()), tag),
        };
        assert_eq!((read(right), read(wrong)), (by_right, by_wrong));
    }
}

/// Volumes, states and arguments of any kind, with right, wrong and refused keys: no call panics, a refusal changes nothing,
/// and a refused key is one of the first two that are met.
#[test]
fn any_call() {
    cases(2_000, |random| {
        let layout = any_layout(random);
        let key = any_key(random);
        let mut volume = any_volume(random, &layout);
        retag(&mut volume, &layout, TagRule::Hmac(&key));
        let state = any_state(random, &layout);
        let staging = any_staging(random, &layout);
        let sector = any_number(random) % 64;
        let refused = vec![9; wrong_key_length(random)];
        for (key, taken) in [
            (&key, true),
            (&other_key(random, &key), true),
            (&refused, false),
        ] {
            let rule = TagRule::Hmac(key);
            let mut staged = staging.clone();
            let answers = [
                calls::format_by(rule, &mut volume.clone(), &layout),
                calls::open_by(rule, &volume, layout.reserved, &mut staging.clone()).map(|_| ()),
                calls::write_by(rule, &mut state.clone(), &mut staged, sector, &[1; 512]),
                calls::read_by(rule, &state, &volume, &staging, sector, &mut [0; 512]),
            ];
            for answer in answers {
                let early = [Err(LENGTH_OR_STATE), Err(PARAMETER)].contains(&answer);
                assert!(taken || early, "{answer:?}");
            }
        }
    });
}
