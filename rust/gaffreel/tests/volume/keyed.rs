//! The calls with a key: keys of every length; what a wrong key shows, what a missing one does, and where nothing shows; volumes
//! that keep their key.

use crate::loans::{Loans, DONE};
use gaffreel::volume::{format_keyed, read, read_keyed, verify, verify_keyed};
use gaffreel::volume::{State, Volume, SECTOR_LENGTH};
use gaffreel::Refusal;
use random::{cases, Random};
use reference::volume::Layout;
use volumes::geometry;
use volumes::keyed::{any_key, other_key, KEY_LENGTHS};

const OUT_OF_RANGE: u32 = 2;
const TAG_MISMATCH: u32 = 7;

/// r 0, T 32, N 16, S 1, P 16: document 01's example.
const LAYOUT: Layout = Layout {
    reserved: 0,
    log2_run: 4,
    tag_size: 32,
    sections: 1,
    provided: 16,
};

/// The stores that commit a batch there, and all stores of one with a single write.
const COMMIT_STORES: u64 = 88;
const STORES: u64 = 90;

/// An unformatted volume, and what is lent with it.
fn unformatted(random: &mut Random, layout: &Layout) -> Loans {
    let geometry = geometry(layout);
    let staging = random.bytes(geometry.staging_length());
    Loans::new(random, &vec![0; geometry.sectors * 512], &staging)
}

/// A volume formatted and open under a key, with a batch of one write to sector 5 after so many stores.
fn after_stores(random: &mut Random, layout: &Layout, key: Option<&[u8]>, stores: u64) -> Loans {
    let mut loans = unformatted(random, layout);
    loans.put_key(random, key);
    assert_eq!(loans.format(layout), DONE);
    assert_eq!(loans.open(layout.reserved), DONE);
    assert_eq!(loans.write(5), DONE);
    assert_eq!(loans.flush(), DONE);
    assert_eq!(loans.advance(stores), DONE);
    loans
}

/// Each of the five calls takes a key of 1 to 256 bytes, and refuses any other, with nothing changed.
#[test]
fn lengths_of_keys() {
    cases(1, |random| {
        let lengths = (0..=260).chain(KEY_LENGTHS).chain([511, 512, 4096, 65_537]);
        for length in lengths {
            let expected = match length {
                1..=256 => DONE,
                _ => OUT_OF_RANGE,
            };
            let key = random.bytes(length);
            let mut loans = unformatted(random, &LAYOUT);
            loans.put_key(random, Some(&key));
            assert_eq!(loans.format(&LAYOUT), expected);
            loans.put_key(random, None);
            if expected != DONE {
                assert_eq!(loans.format(&LAYOUT), DONE);
            }
            assert_eq!(loans.open(0), DONE);
            loans.put_key(random, Some(&key));
            assert_eq!(loans.clone().open(0), expected);
            assert_eq!(loans.clone().read(3), expected);
            assert_eq!(loans.clone().verify(0, LAYOUT.provided), expected);
            assert_eq!(loans.write(3), expected);
        }
    });
}

/// The same stores as without a key: only tags differ.
#[test]
fn a_batch_under_a_key() {
    cases(20, |random| {
        let key = any_key(random);
        for stores in 0..=STORES {
            let mut loans = after_stores(random, &LAYOUT, Some(&key), stores);
            loans.cut(random);
            assert_eq!(loans.open(0), DONE);
            let to_come = if stores < COMMIT_STORES { 0 } else { 2 };
            assert_eq!(loans.answer()[0], to_come);
            assert_eq!(loans.advance(u64::MAX), DONE);
            assert_eq!(loans.verify(0, LAYOUT.provided), DONE);
            for sector in 0..LAYOUT.provided {
                assert_eq!(loans.read(sector), DONE);
            }
        }
    });
}

/// After a cut at 88 stores, and from there on, open shows a wrong key and a missing one; before, the first read does.
#[test]
fn wrong_and_missing_keys() {
    cases(20, |random| {
        // None so short that a tag may fit by chance.
        let tag_size = random.length(8..=32) as u64;
        let layout = Layout { tag_size, ..LAYOUT };
        let commit = geometry(&layout).section_sectors as u64;
        let key = any_key(random);
        let other = other_key(random, &key);
        for (made_by, lent) in [
            (Some(&key), Some(&other)),
            (Some(&key), None),
            (None, Some(&key)),
        ] {
            for stores in [0, commit - 1, commit, commit + 1, commit + 2] {
                let key = made_by.map(|key| &key[..]);
                let mut loans = after_stores(random, &layout, key, stores);
                loans.cut(random);
                loans.put_key(random, lent.map(|key| &key[..]));
                let opened = loans.open(0);
                if stores >= commit {
                    assert_eq!(opened, TAG_MISMATCH);
                    assert_eq!(loans.answer()[..3], [2, 0, 0]);
                    continue;
                }
                assert_eq!(opened, DONE);
                for sector in 0..layout.provided {
                    assert_eq!(loans.read(sector), TAG_MISMATCH);
                    assert_eq!(loans.answer()[..2], [1, sector]);
                    assert_eq!(loans.verify(sector, 1), TAG_MISMATCH);
                    assert_eq!(loans.answer()[..2], [1, sector]);
                }
            }
        }
    });
}

/// A write under a wrong key is not noticed. Its sector is good under that key alone, and the batch in the journal has the volume
/// refused under the right one.
#[test]
fn writes_under_a_wrong_key() {
    cases(20, |random| {
        let key = any_key(random);
        let wrong = other_key(random, &key);
        let mut loans = unformatted(random, &LAYOUT);
        loans.put_key(random, Some(&key));
        assert_eq!(loans.format(&LAYOUT), DONE);
        assert_eq!(loans.open(0), DONE);
        loans.put_key(random, Some(&wrong));
        assert_eq!(loans.write(5), DONE);
        // A staged entry's tag is not tested.
        loans.put_key(random, Some(&key));
        assert_eq!(loans.read(5), DONE);
        assert_eq!(loans.flush(), DONE);
        assert_eq!(loans.advance(u64::MAX), DONE);
        for (lent, at_5, elsewhere) in [(&key, TAG_MISMATCH, DONE), (&wrong, DONE, TAG_MISMATCH)] {
            loans.put_key(random, Some(lent));
            for sector in 0..LAYOUT.provided {
                let expected = if sector == 5 { at_5 } else { elsewhere };
                assert_eq!(loans.clone().read(sector), expected);
                assert_eq!(loans.clone().verify(sector, 1), expected);
            }
            let mut again = loans.clone();
            again.cut(random);
            assert_eq!(again.open(0), at_5);
        }
    });
}

fn wrapped(layout: &Layout) -> gaffreel::volume::Layout {
    gaffreel::volume::Layout {
        reserved: layout.reserved,
        log2_run: layout.log2_run,
        tag_size: layout.tag_size,
        sections: layout.sections,
        provided: layout.provided,
    }
}

/// A volume that is opened with a key reads, writes and verifies with it.
#[test]
fn volumes_that_keep_their_key() {
    let key = b"of the cabinet";
    let mut bytes = vec![0; 120 * SECTOR_LENGTH];
    format_keyed(&mut bytes, &wrapped(&LAYOUT), key).unwrap();
    let mut volume = Volume::recovered_keyed(bytes, 0, key).unwrap();
    volume.write(5, &[1; SECTOR_LENGTH]).unwrap();
    volume.flush().unwrap();
    volume.advance(u64::MAX).unwrap();
    assert_eq!(volume.read(5), Ok([1; SECTOR_LENGTH]));
    assert_eq!(volume.read(4), Ok([0; SECTOR_LENGTH]));
    assert_eq!(volume.verify(0, LAYOUT.provided), Ok(()));
    assert_tags(volume.state(), volume.bytes(), key);

    let bytes = volume.into_bytes();
    let (section, entry) = (0, 0);
    let refused = Some(Refusal::JournalTag { section, entry });
    assert_eq!(Volume::open(&bytes, 0).err(), refused);
    assert_eq!(Volume::open_keyed(&bytes, 0, b"another").err(), refused);
    let again = Volume::recovered_keyed(bytes.clone(), 0, key).unwrap();
    assert_eq!(again.stores_to_come(), 2);
    assert!(again.bytes() == bytes);
}

/// Every sector is read and verified with the key, and none without it.
fn assert_tags(state: &State, bytes: &[u8], key: &[u8]) {
    let staging = vec![0; 88 * SECTOR_LENGTH];
    let mut out = [0; SECTOR_LENGTH];
    for sector in 0..LAYOUT.provided {
        let with_key = read_keyed(state, bytes, &staging, sector, &mut out, key);
        assert_eq!(with_key, Ok(()));
        let without = read(state, bytes, &staging, sector, &mut out);
        assert_eq!(without, Err(Refusal::Tag { sector }));
        assert_eq!(verify_keyed(state, bytes, sector, 1, key), Ok(()));
        assert_eq!(verify(state, bytes, sector, 1), without);
    }
}

/// Neither the key's bytes nor its length is printed.
#[test]
fn keys_are_not_printed() {
    let mut bytes = vec![0; 120 * SECTOR_LENGTH];
    format_keyed(&mut bytes, &wrapped(&LAYOUT), &[237; 7]).unwrap();
    // With nothing to replay, any key is taken.
    let printed = |key: &[u8]| format!("{:?}", Volume::open_keyed(&bytes[..], 0, key));
    let short = printed(&[237; 7]);
    assert!(short.contains("Hmac(..)"));
    assert_eq!(short, printed(&[201; 256]));
}
