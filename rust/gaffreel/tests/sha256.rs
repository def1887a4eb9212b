//! The proved SHA-256 against the reference: answers, digests and every byte of the states. Whole messages of each short
//! length and of long ones; messages in two pieces, cut at each place, and in many; states of any bytes, and totals around
//! the limit; buffers of wrong lengths.

use gaffreel::{ffi, sha256, Sha256, DIGEST_LENGTH, STATE_LENGTH};
use random::{cases, count_compared, Lent, Random, Reached};
use reference::sha256::{digest, State, LIMIT};

const DONE: u32 = 0;
const REFUSED: u32 = 1;

/// The reference's state as the C interface lays it out.
fn state_bytes(state: &State) -> [u8; STATE_LENGTH] {
    let mut bytes = [0; STATE_LENGTH];
    for (i, word) in state.words.iter().enumerate() {
        bytes[4 * i..][..4].copy_from_slice(&word.to_le_bytes());
    }
    bytes[32..96].copy_from_slice(&state.tail);
    bytes[96..].copy_from_slice(&state.count.to_le_bytes());
    bytes
}

/// Both implementations side by side.
struct Pair {
    proved: Sha256,
    reference: State,
}

impl Pair {
    fn new() -> Pair {
        let pair = Pair {
            proved: Sha256::new(),
            reference: State::new(),
        };
        pair.same_state();
        count_compared();
        pair
    }

    fn of_state(reference: State) -> Pair {
        Pair {
            proved: Sha256::from_bytes(state_bytes(&reference)),
            reference,
        }
    }

    fn same_state(&self) {
        assert_eq!(self.proved.to_bytes(), state_bytes(&self.reference));
    }

    fn update(&mut self, piece: &[u8]) -> Result<(), u32> {
        let answer = self.proved.update(piece).map_err(|r| r.number());
        let expected = self.reference.update(piece).map_err(|r| r.number());
        assert_eq!(answer, expected);
        self.same_state();
        count_compared();
        answer
    }

    /// Closes at the C interface, so that the digest's buffer is seen after a refusal too.
    fn finish(&self) {
        let mut closed = [0xa5; DIGEST_LENGTH];
        let answer = ffi::sha256_finish(&self.proved.to_bytes(), &mut closed);
        match self.reference.finish() {
            Ok(expected) => assert_eq!((answer, closed), (DONE, expected)),
            Err(refusal) => assert_eq!((answer, closed), (refusal.number(), [0xa5; DIGEST_LENGTH])),
        }
        let finished = self.proved.finish().map_err(|r| r.number());
        let expected = self.reference.finish().map_err(|r| r.number());
        assert_eq!(finished, expected);
        count_compared();
    }
}

fn same_digest(message: &[u8]) {
    assert_eq!(sha256(message).ok(), digest(message).ok());
    count_compared();
}

#[test]
fn each_short_length() {
    cases(50, |random| {
        for length in 0..=300 {
            same_digest(&random.bytes(length));
        }
    });
}

#[test]
fn short_messages() {
    cases(100_000, |random| {
        let length = random.length(0..=300);
        same_digest(&random.bytes(length));
    });
}

#[test]
fn long_messages() {
    cases(50, |random| {
        let length = random.length(301..=1 << 20);
        same_digest(&random.bytes(length));
    });
}

#[test]
fn each_cut_in_two() {
    cases(1, |random| {
        for length in 0..=200 {
            let message = random.bytes(length);
            for place in 0..=length {
                let mut pair = Pair::new();
                assert_eq!(pair.update(&message[..place]), Ok(()));
                assert_eq!(pair.update(&message[place..]), Ok(()));
                pair.finish();
            }
        }
    });
}

/// Cuts a message at random places, empty pieces included, and closes after each piece: the state goes on.
fn in_pieces(random: &mut Random, message: &[u8], longest: usize) {
    let mut pair = Pair::new();
    let mut rest = message;
    while !rest.is_empty() {
        let length = random.length(0..=longest.min(rest.len()));
        let (piece, after) = rest.split_at(length);
        assert_eq!(pair.update(piece), Ok(()));
        pair.finish();
        rest = after;
    }
    assert_eq!(pair.proved.finish().ok(), digest(message).ok());
}

#[test]
fn pieces() {
    cases(50_000, |random| {
        let length = random.length(0..=600);
        let longest = random.length(1..=200);
        let message = random.bytes(length);
        in_pieces(random, &message, longest);
    });
}

#[test]
fn pieces_of_long_messages() {
    cases(50, |random| {
        let length = random.length(0..=1 << 18);
        let longest = random.length(1 << 8..=1 << 16);
        let message = random.bytes(length);
        in_pieces(random, &message, longest);
    });
}

/// Counts of any size, and many next to 0, to the limit and to the greatest number.
fn any_count(random: &mut Random) -> u64 {
    let distance = random.number() % 256;
    match random.number() % 6 {
        0 => distance,
        1 => LIMIT - distance,
        2 => LIMIT + distance,
        3 => u64::MAX - distance,
        4 => random.number() % (LIMIT + 1),
        _ => random.number(),
    }
}

fn any_state(random: &mut Random) -> State {
    let mut tail = [0; 64];
    random.fill(&mut tail);
    State {
        words: std::array::from_fn(|_| random.number() as u32),
        tail,
        count: any_count(random),
    }
}

#[test]
fn any_states() {
    let mut reached = Reached::new();
    cases(200_000, |random| {
        let mut pair = Pair::of_state(any_state(random));
        pair.finish();
        for _ in 0..2 {
            let length = random.length(0..=200);
            reached.add(pair.update(&random.bytes(length)));
            pair.finish();
        }
    });
    reached.assert_each(50_000, [Ok(()), Err(REFUSED)]);
}

/// Pieces that take the total to the limit's neighbourhood, each length and each count there.
#[test]
fn each_total_near_the_limit() {
    cases(1, |random| {
        for length in [0, 1, 2, 63, 64, 65, 130] {
            for total in LIMIT - 70..=LIMIT + 70 {
                let mut state = any_state(random);
                state.count = total - length as u64;
                let mut pair = Pair::of_state(state);
                let answer = pair.update(&random.bytes(length));
                assert_eq!(answer.is_ok(), total <= LIMIT);
                pair.finish();
            }
        }
    });
}

/// A random length other than `right`, often the one above or below.
fn wrong_length(random: &mut Random, right: usize) -> usize {
    match random.number() % 4 {
        0 => right - 1,
        1 => right + 1,
        2 => random.length(0..=right - 1),
        _ => random.length(right + 1..=300),
    }
}

/// A length for each of two buffers, of which at least one is wrong.
fn wrong_lengths(random: &mut Random, first: usize, second: usize) -> (usize, usize) {
    match random.number() % 3 {
        0 => (wrong_length(random, first), second),
        1 => (first, wrong_length(random, second)),
        _ => (wrong_length(random, first), wrong_length(random, second)),
    }
}

/// Makes a call that must be refused on a buffer that must stay as it was, the bytes around it included.
fn refused(random: &mut Random, length: usize, call: impl FnOnce(&mut [u8]) -> u32) {
    let mut lent = Lent::new(random, length);
    let before = lent.clone();
    assert_eq!(call(lent.buffer()), REFUSED);
    assert_eq!(lent, before);
    count_compared();
}

#[test]
fn wrong_buffer_lengths() {
    cases(50_000, |random| {
        let piece_length = random.length(0..=200);
        let piece = random.bytes(piece_length);

        let length = wrong_length(random, DIGEST_LENGTH);
        refused(random, length, |digest| ffi::sha256(&piece, digest));

        let length = wrong_length(random, STATE_LENGTH);
        refused(random, length, ffi::sha256_new);

        let length = wrong_length(random, STATE_LENGTH);
        refused(random, length, |state| ffi::sha256_update(state, &piece));

        let (state, digest) = wrong_lengths(random, STATE_LENGTH, DIGEST_LENGTH);
        let mut state = random.bytes(state);
        if let Some(greatest) = state.get_mut(103) {
            *greatest = 0; // A count below the limit, so that the length alone is wrong.
        }
        refused(random, digest, |digest| ffi::sha256_finish(&state, digest));
    });
}
