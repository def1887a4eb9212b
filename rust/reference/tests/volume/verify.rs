//! The tags of many sectors tested at once: as reads of the sectors one by one, and the order of refusals.

use crate::setting::{committing, filling, filling_with, in_phase, recovering, writing_back};
use crate::setting::{with_sections, LAYOUT, SECTORS};
use random::{cases, Random, Reached};
use reference::volume::{read, verify, Layout, Phase, Refusal, State, TagRule};
use volumes::any::{any_layout, any_range, any_state, any_volume, small_layout};
use volumes::keyed::{any_key, other_key, retag, wrong_key_length};
use volumes::tag_sizes::TagSizes;
use volumes::{empty_staging, formatted, formatted_by, geometry, Entry};

const LENGTH_OR_STATE: Refusal = Refusal::LengthOrState;

/// A volume whose sectors hold any bytes, each with its tag, but for a few bytes of data and tags.
fn damaged(random: &mut Random, layout: &Layout, rule: TagRule) -> Vec<u8> {
    let geometry = geometry(layout);
    let mut volume = formatted_by(rule, layout, random.length(0..=1));
    for sector in 0..layout.provided {
        let home = geometry.home(sector).unwrap();
        let mut data = [0; 512];
        random.fill(&mut data);
        let whole = rule.of_sector(sector, &data).unwrap();
        volume[home.data * 512..][..512].copy_from_slice(&data);
        volume[home.tag..][..geometry.tag_size].copy_from_slice(&whole[..geometry.tag_size]);
    }
    for _ in 0..random.length(0..=3) {
        let home = geometry.home(random.number() % layout.provided).unwrap();
        let (start, length) = random.pick(&[(home.data * 512, 512), (home.tag, geometry.tag_size)]);
        volume[start + random.length(0..=length - 1)] ^= 1 << random.length(0..=7);
    }
    volume
}

/// What a verify must answer, told by reads of a volume with an empty batch.
fn by_reads(
    state: &State,
    volume: &[u8],
    first: u64,
    count: u64,
    rule: TagRule,
) -> Result<(), Refusal> {
    let provided = state.layout.provided;
    if u128::from(first) + u128::from(count) > u128::from(provided) {
        return Err(Refusal::Sector);
    }
    let state = State { count: 0, ..*state };
    let staging = empty_staging(&geometry(&state.layout));
    let mut sectors = first..first + count;
    sectors.try_for_each(|sector| read(&state, volume, &staging, sector, &mut [0; 512], rule))
}

/// Whatever the batch has: staging is not even lent.
#[test]
fn as_reads_one_by_one() {
    let mut reached = Reached::new();
    let mut sizes = TagSizes::new();
    cases(1_500, |random| {
        let layout = small_layout(random);
        let key = any_key(random);
        let rule = random.pick(&[TagRule::Digest, TagRule::Hmac(&key)]);
        let volume = damaged(random, &layout, rule);
        let state = State {
            layout,
            count: random.number() % (geometry(&layout).entries as u64 + 1),
            ..filling()
        };
        for _ in 0..8 {
            let (first, count) = any_range(random, layout.provided);
            let answer = verify(&state, &volume, first, count, rule);
            assert_eq!(answer, by_reads(&state, &volume, first, count, rule));
            reached.add(answer.map_or_else(Refusal::number, |()| 0));
        }
        let other = other_key(random, &key);
        let first = random.number() % layout.provided;
        // A short tag may fit by chance.
        let wrong = TagRule::Hmac(&other);
        let answer = verify(&state, &volume, first, 1, wrong);
        assert_eq!(answer, by_reads(&state, &volume, first, 1, wrong));
        sizes.add(&layout);
    });
    reached.assert_each(500, [0, 6, 7]);
    sizes.assert_all(100);
}

/// 1 before 2, 2 before 9, 9 before 6, 6 before 7: no tag of the volume fits.
#[test]
fn order_of_refusals() {
    let mut volume = with_sections(&[(0, 1, &[Entry::new(3, 1)])]);
    volume[geometry(&LAYOUT).base * 512..].fill(0xee);
    let unsound = State { id: 0, ..filling() };
    let at_store = |store| in_phase(Phase::WritingBack { entry: 0, store }, 1);
    for (state, length, expected) in [
        (unsound, SECTORS, Some(LENGTH_OR_STATE)),
        (recovering(2), SECTORS, Some(LENGTH_OR_STATE)),
        (filling(), SECTORS - 1, Some(LENGTH_OR_STATE)),
        (recovering(1), SECTORS, Some(Refusal::NotNow)),
        (committing(0), SECTORS, Some(Refusal::NotNow)),
        (writing_back(0, 1), SECTORS, Some(Refusal::NotNow)),
        (at_store(1), SECTORS, Some(Refusal::NotNow)),
        // Without staging it cannot be told that there is no third store.
        (at_store(2), SECTORS, Some(Refusal::NotNow)),
        (at_store(3), SECTORS, Some(LENGTH_OR_STATE)),
        (filling(), SECTORS, None),
        (filling_with(80), SECTORS, None),
    ] {
        let volume = &volume[..length * 512];
        for (first, count, then) in ranges() {
            let expected = expected.map_or(then, Err);
            let answer = verify(&state, volume, first, count, TagRule::Digest);
            assert_eq!(answer, expected, "{state:?}, {first}, {count}");
            for key in [&[][..], &[7; 257]] {
                let answer = verify(&state, volume, first, count, TagRule::Hmac(key));
                let early = expected == Err(LENGTH_OR_STATE);
                let refused = if early {
                    LENGTH_OR_STATE
                } else {
                    Refusal::Parameter
                };
                assert_eq!(answer, Err(refused), "{state:?}");
            }
        }
    }
}

/// Ranges, and what is answered of them where no tag fits. None needs a sum that does not exist.
fn ranges() -> [(u64, u64, Result<(), Refusal>); 13] {
    let tag = |sector| Err(Refusal::Tag { sector });
    let beyond = Err(Refusal::Sector);
    [
        (0, 0, Ok(())),
        (10, 0, Ok(())),
        (11, 0, beyond),
        (0, 10, tag(0)),
        (9, 1, tag(9)),
        (4, 3, tag(4)),
        (0, 11, beyond),
        (9, 2, beyond),
        (10, 1, beyond),
        (1, u64::MAX, beyond),
        (u64::MAX, 1, beyond),
        (u64::MAX, 0, beyond),
        (u64::MAX, u64::MAX, beyond),
    ]
}

#[test]
fn lengths_of_volumes() {
    let whole = formatted(&LAYOUT, 1);
    for length in [
        0,
        1,
        SECTORS * 512 - 1,
        (SECTORS - 1) * 512,
        SECTORS * 512 + 1,
    ] {
        let answer = verify(&filling(), &whole[..length], 0, 0, TagRule::Digest);
        assert_eq!(answer, Err(LENGTH_OR_STATE));
    }
    for length in [SECTORS * 512, (SECTORS + 1) * 512] {
        let answer = verify(&filling(), &whole[..length], 0, 10, TagRule::Digest);
        assert_eq!(answer, Ok(()));
    }
}

/// Volumes, states and numbers of any kind: no call panics, and a refused key is one of the first two that are met.
#[test]
fn any_call() {
    cases(2_000, |random| {
        let layout = any_layout(random);
        let key = any_key(random);
        let mut volume = any_volume(random, &layout);
        retag(&mut volume, &layout, TagRule::Hmac(&key));
        let state = any_state(random, &layout);
        let refused = vec![9; wrong_key_length(random)];
        let provided = random.number() % 64;
        let (first, count) = any_range(random, provided);
        for rule in [TagRule::Digest, TagRule::Hmac(&key)] {
            let _ = verify(&state, &volume, first, count, rule);
        }
        let answer = verify(&state, &volume, first, count, TagRule::Hmac(&refused));
        assert!([Err(LENGTH_OR_STATE), Err(Refusal::Parameter)].contains(&answer));
    });
}
