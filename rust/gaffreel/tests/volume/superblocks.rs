//! Superblocks with one byte or one number wrong: each byte, and each number at the ends of its range and beyond.

use crate::loans::{Loans, DONE};
use random::{cases, Random};
use reference::volume::Layout;
use volumes::keyed::any_key;
use volumes::{formatted, geometry};

const LAYOUT: Layout = Layout {
    reserved: 1,
    log2_run: 3,
    tag_size: 32,
    sections: 1,
    provided: 5,
};

const NOT_VALID: u32 = 4;
const TOO_SHORT: u32 = 5;

/// Where the superblock starts.
const START: usize = 512;

fn opened(random: &mut Random) -> Loans {
    let staging = random.bytes(geometry(&LAYOUT).staging_length());
    let mut loans = Loans::new(random, &formatted(&LAYOUT, 0), &staging);
    assert_eq!(loans.open(LAYOUT.reserved), DONE);
    loans
}

/// Replaces bytes of the superblock, queries, opens without a key and with one, which with an empty journal may be any, and puts the
/// bytes back. Gives the query's number.
fn with_bytes(random: &mut Random, loans: &mut Loans, place: usize, bytes: &[u8]) -> u32 {
    let before = loans.lent().volume.bytes()[START + place..][..bytes.len()].to_vec();
    loans.put(|lent| &mut lent.volume, START + place, bytes);
    let number = loans.query(LAYOUT.reserved);
    let without = loans.open(LAYOUT.reserved);
    let key = any_key(random);
    loans.put_key(random, Some(&key));
    assert_eq!(loans.open(LAYOUT.reserved), without);
    loans.put_key(random, None);
    loans.put(|lent| &mut lent.volume, START + place, &before);
    number
}

#[test]
fn each_byte() {
    cases(8, |random| {
        let mut loans = opened(random);
        for place in 0..8 * 512 {
            let right = loans.lent().volume.bytes()[START + place];
            let wrong = right ^ random.length(1..=255) as u8;
            let number = with_bytes(random, &mut loans, place, &[wrong]);
            if !(9..24).contains(&place) {
                assert_eq!(number, NOT_VALID, "byte {place}");
            }
        }
        assert_eq!(loans.open(LAYOUT.reserved), DONE);
    });
}

/// The numbers that a superblock is given: one where there are as many bytes, else numbers around the ends of the ranges.
fn numbers(random: &mut Random, length: usize) -> Vec<u64> {
    if length == 1 {
        return (0..256).collect();
    }
    let ends = [
        0, 1, 5, 6, 8, 9, 20, 24, 30, 32, 33, 64, 65, 128, 256, 276, 0x2000,
    ];
    let high = [65_535, 65_536, 65_537, 1 << 24, 1 << 31, 1 << 32, u64::MAX];
    let any = (0..20).map(|_| random.number() >> random.length(0..=63));
    ends.into_iter().chain(high).chain(any).collect()
}

/// What a query must answer to the layout with another number in one place.
fn expected(place: usize, number: u64) -> u32 {
    let mut layout = LAYOUT;
    match place {
        9 => layout.log2_run = number,
        10 => layout.tag_size = number,
        12 => layout.sections = number,
        _ => layout.provided = number,
    }
    match layout.geometry() {
        None => NOT_VALID,
        Some(other) if other.sectors > geometry(&LAYOUT).sectors => TOO_SHORT,
        Some(_) => DONE,
    }
}

#[test]
fn each_number() {
    cases(20, |random| {
        let mut loans = opened(random);
        for (place, length) in [(9, 1), (10, 2), (12, 4), (16, 8)] {
            for number in numbers(random, length) {
                let bytes = &number.to_le_bytes()[..length];
                let mut kept = [0; 8];
                kept[..length].copy_from_slice(bytes);
                let answer = with_bytes(random, &mut loans, place, bytes);
                assert_eq!(answer, expected(place, u64::from_le_bytes(kept)));
            }
        }
    });
}
