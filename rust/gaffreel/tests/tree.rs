//! The proved hash tree against the reference: answers, failing levels, and every byte of trees, root digests and buffers
//! that a refusal leaves. `builds`, `largest_trees`, `blocks_of_built_images`: trees and blocks that are taken. `damages`:
//! each level that may fail. `refused_verifications`, `refused_builds`: each refusal, and several at once.

use gaffreel::tree::{self, BLOCK_LENGTH, LONGEST_SALT, MOST_BLOCKS};
use gaffreel::{ffi, Refusal, DIGEST_LENGTH};
use random::{cases, count_compared, Lent, Random, Reached};
use reference::tree as reference;

const DONE: u32 = 0;
const WRONG_LENGTH: u32 = 1;
const OUT_OF_RANGE: u32 = 2;
const MISMATCH: u32 = 12;
const LEVEL_LENGTH: usize = 4;

/// Builds by both, and compares answer, tree and root digest.
fn same_build(
    random: &mut Random,
    count: usize,
    salt: &[u8],
    image: &[u8],
    tree_length: usize,
    root_length: usize,
) -> u32 {
    let mut tree = Lent::new(random, tree_length);
    let mut root = Lent::new(random, root_length);
    let mut expected_tree = tree.clone();
    let mut expected_root = root.clone();
    let expected_number = if root_length == DIGEST_LENGTH {
        match reference::build(count, salt, image, expected_tree.buffer()) {
            Ok(digest) => {
                expected_root.buffer().copy_from_slice(&digest);
                DONE
            }
            Err(refusal) => refusal.number(),
        }
    } else {
        WRONG_LENGTH
    };
    let number = ffi::tree_build(count, salt, image, tree.buffer(), root.buffer());
    assert_eq!(number, expected_number);
    assert_eq!(root, expected_root);
    // A tree that differs is too long to print.
    assert!(tree == expected_tree);
    count_compared();
    number
}

/// An image with its tree, and what is verified against it.
#[derive(Clone)]
struct Case {
    block: Vec<u8>,
    index: usize,
    tree: Vec<u8>,
    count: usize,
    salt: Vec<u8>,
    root: Vec<u8>,
}

impl Case {
    /// Verifies by both, and compares number and level.
    fn same_verify(&self, random: &mut Random) -> u32 {
        self.same_verify_with_level_length(random, LEVEL_LENGTH).0
    }

    /// The same, and gives what the level's buffer has.
    fn same_verify_with_level_length(
        &self,
        random: &mut Random,
        level_length: usize,
    ) -> (u32, Vec<u8>) {
        let mut level = Lent::new(random, level_length);
        let mut expected_level = level.clone();
        let expected_number = self.expected(expected_level.buffer());
        let number = ffi::tree_verify(
            &self.block,
            self.index,
            &self.tree,
            self.count,
            &self.salt,
            &self.root,
            level.buffer(),
        );
        assert_eq!((number, &level), (expected_number, &expected_level));
        count_compared();
        (number, level.bytes().to_vec())
    }

    /// The number that the reference gives, and the level, if one fails.
    fn expected(&self, level: &mut [u8]) -> u32 {
        if level.len() != LEVEL_LENGTH {
            return WRONG_LENGTH;
        }
        let verified = reference::verify(
            &self.block,
            self.index,
            &self.tree,
            self.count,
            &self.salt,
            &self.root,
        );
        match verified {
            Ok(()) => DONE,
            Err(refusal) => {
                if let reference::Refusal::Mismatch(failing) = refusal {
                    level.copy_from_slice(&failing.to_le_bytes());
                }
                refusal.number()
            }
        }
    }
}

/// Many small counts, and those around the first that has a second level.
fn any_count(random: &mut Random) -> usize {
    match random.number() % 16 {
        0 => 1,
        1 => 2,
        2..=9 => random.length(1..=8),
        10..=13 => random.length(127..=130),
        14 => random.length(9..=126),
        _ => random.length(131..=700),
    }
}

fn any_salt(random: &mut Random) -> Vec<u8> {
    let length = random.length(0..=LONGEST_SALT);
    random.bytes(length)
}

/// A random image, its tree by the safe wrapper, and a block of it.
fn built(random: &mut Random, count: usize) -> (Vec<u8>, Case) {
    let salt = any_salt(random);
    let image = random.bytes(count * BLOCK_LENGTH);
    let mut tree = random.bytes(tree::length(count).expect("in range"));
    let root = tree::build(count, &salt, &image, &mut tree).expect("all lengths fit");
    let index = random.length(0..=count - 1);
    let case = Case {
        block: image[index * BLOCK_LENGTH..][..BLOCK_LENGTH].to_vec(),
        index,
        tree,
        count,
        salt,
        root: root.to_vec(),
    };
    (image, case)
}

#[test]
fn each_length() {
    for count in 0..=MOST_BLOCKS + 300 {
        let expected = reference::length(count);
        assert_eq!(tree::length(count), expected);
        assert_eq!(ffi::tree_length(count), expected.unwrap_or(0));
    }
    assert_eq!(tree::length(1), Some(0));
    for count in [1 << 32, (1 << 32) + 1, usize::MAX] {
        assert_eq!(tree::length(count), None);
        assert_eq!(ffi::tree_length(count), 0);
    }
}

#[test]
fn builds() {
    cases(1_000, |random| {
        let count = any_count(random);
        let salt = any_salt(random);
        let image = random.bytes(count * BLOCK_LENGTH);
        let length = tree::length(count).expect("in range");
        let number = same_build(random, count, &salt, &image, length, DIGEST_LENGTH);
        assert_eq!(number, DONE);
    });
}

#[test]
fn largest_trees() {
    cases(1, |random| {
        for count in [MOST_BLOCKS - random.length(1..=200), MOST_BLOCKS] {
            let (image, mut case) = built(random, count);
            let mut tree = random.bytes(case.tree.len());
            let root = reference::build(count, &case.salt, &image, &mut tree);
            assert_eq!(root.expect("all lengths fit"), case.root[..]);
            assert!(tree == case.tree);
            for index in (0..count).step_by(97).chain([count - 1]) {
                case.index = index;
                case.block = image[index * BLOCK_LENGTH..][..BLOCK_LENGTH].to_vec();
                assert_eq!(case.same_verify(random), DONE);
            }
        }
    });
}

/// Each block of a built image is accepted at its own index, and each other's is judged alike.
#[test]
fn blocks_of_built_images() {
    cases(200, |random| {
        let count = any_count(random);
        let (image, mut case) = built(random, count);
        for (index, block) in image.chunks_exact(BLOCK_LENGTH).enumerate() {
            case.index = index;
            case.block = block.to_vec();
            assert_eq!(case.same_verify(random), DONE);
        }
        case.index = random.length(0..=count - 1);
        case.same_verify(random);
    });
}

fn turn_a_bit(random: &mut Random, bytes: &mut [u8]) {
    if !bytes.is_empty() {
        let at = random.length(0..=bytes.len() - 1);
        bytes[at] ^= 1 << random.length(0..=7);
    }
}

/// A random length other than `right`, often the one above or below.
fn wrong_length(random: &mut Random, right: usize) -> usize {
    match random.number() % 4 {
        0 if right > 0 => right - 1,
        1 => right + 1,
        2 if right > 0 => random.length(0..=right - 1),
        _ => random.length(right + 1..=right + 300),
    }
}

fn wrong_number(random: &mut Random, least_wrong: usize) -> usize {
    match random.number() % 4 {
        0 => least_wrong,
        1 => random.length(least_wrong..=least_wrong + 300),
        2 => usize::MAX - random.length(0..=300),
        _ => least_wrong | random.number() as usize,
    }
}

/// One damage to what is verified.
fn damage(random: &mut Random, case: &mut Case) {
    let blocks = case.tree.len() / BLOCK_LENGTH;
    let above = blocks.saturating_sub(case.count.div_ceil(128)) + case.index / 128;
    match random.number() % 14 {
        0 => turn_a_bit(random, &mut case.block),
        1 => turn_a_bit(random, &mut case.root),
        2 => turn_a_bit(random, &mut case.salt),
        3 => turn_a_bit(random, &mut case.tree),
        // The root block; the hash block above the data block, and the digest there; the end of the last one: often padding.
        4 => turn_a_bit(
            random,
            &mut case.tree[..BLOCK_LENGTH.min(blocks * BLOCK_LENGTH)],
        ),
        5 if above < blocks => turn_a_bit(
            random,
            &mut case.tree[above * BLOCK_LENGTH..][..BLOCK_LENGTH],
        ),
        6 if above < blocks => turn_a_bit(
            random,
            &mut case.tree[above * BLOCK_LENGTH + case.index % 128 * DIGEST_LENGTH..]
                [..DIGEST_LENGTH],
        ),
        7 => {
            let end = case.tree.len();
            turn_a_bit(random, &mut case.tree[end.saturating_sub(64)..]);
        }
        8 => case.index = random.length(0..=case.count),
        9 => case.count = any_count(random),
        10 => random.fill(&mut case.block),
        11 => random.fill(&mut case.root),
        _ => case.salt = any_salt(random),
    }
}

/// One wrong length, or number out of range.
fn misuse(random: &mut Random, case: &mut Case) {
    match random.number() % 7 {
        0 => {
            let length = wrong_length(random, case.block.len());
            case.block.resize(length, 0);
        }
        1 => {
            let length = wrong_length(random, case.root.len());
            case.root.resize(length, 0);
        }
        2 => {
            let length = wrong_length(random, case.tree.len());
            case.tree.resize(length, 0);
        }
        3 => {
            let length = random.length(LONGEST_SALT + 1..=LONGEST_SALT + 3);
            case.salt.resize(length, 0);
        }
        4 => case.index = wrong_number(random, case.count),
        5 => case.count = 0,
        _ => case.count = wrong_number(random, MOST_BLOCKS + 1),
    }
}

#[test]
fn damages() {
    let mut reached = Reached::new();
    cases(400, |random| {
        let count = any_count(random);
        let (_, good) = built(random, count);
        for _ in 0..20 {
            let mut case = good.clone();
            for _ in 0..random.length(1..=3) {
                damage(random, &mut case);
            }
            let (number, level) = case.same_verify_with_level_length(random, LEVEL_LENGTH);
            reached.add((number, if number == MISMATCH { level } else { vec![] }));
        }
    });
    let levels = [-1_i32, 0, 1].map(|level| (MISMATCH, level.to_le_bytes().to_vec()));
    reached.assert_each(100, levels);
    reached.assert_each(100, [(DONE, vec![])]);
}

/// Several rules may be met: the first decides.
#[test]
fn refused_verifications() {
    let mut reached = Reached::new();
    cases(400, |random| {
        let count = any_count(random);
        let (_, good) = built(random, count);
        for _ in 0..20 {
            let mut case = good.clone();
            for _ in 0..random.length(0..=2) {
                damage(random, &mut case);
            }
            for _ in 0..random.length(0..=2) {
                misuse(random, &mut case);
            }
            let level_length = match random.number() % 3 {
                0 => wrong_length(random, LEVEL_LENGTH),
                _ => LEVEL_LENGTH,
            };
            let (number, _) = case.same_verify_with_level_length(random, level_length);
            reached.add(number);
        }
    });
    reached.assert_each(100, [DONE, WRONG_LENGTH, OUT_OF_RANGE, MISMATCH]);
}

/// Several rules may be met: the first decides.
#[test]
fn refused_builds() {
    let mut reached = Reached::new();
    cases(5_000, |random| {
        let good_count = random.length(1..=5);
        let mut count = good_count;
        let mut salt = any_salt(random);
        let mut image_length = count * BLOCK_LENGTH;
        let good_length = tree::length(good_count).expect("in range");
        let mut tree_length = good_length;
        let mut root_length = DIGEST_LENGTH;
        for _ in 0..random.length(1..=3) {
            match random.number() % 6 {
                0 => count = 0,
                1 => count = wrong_number(random, MOST_BLOCKS + 1),
                2 => salt.resize(LONGEST_SALT + 1, 0),
                3 => image_length = wrong_length(random, good_count * BLOCK_LENGTH),
                4 => tree_length = wrong_length(random, good_length),
                _ => root_length = wrong_length(random, DIGEST_LENGTH),
            }
        }
        let image = random.bytes(image_length);
        let number = same_build(random, count, &salt, &image, tree_length, root_length);
        reached.add(number);
    });
    reached.assert_each(1_000, [WRONG_LENGTH, OUT_OF_RANGE]);
}

fn same_refusal(refusal: Refusal, expected: reference::Refusal) {
    assert_eq!(refusal.number(), expected.number());
    let values = match expected {
        reference::Refusal::Mismatch(level) => vec![i128::from(level)],
        _ => vec![],
    };
    assert_eq!(refusal.values(), values);
    assert!(refusal.to_string().contains(": "));
}

/// The safe wrapper's refusals have the number and values of the reference's, and say what to do.
#[test]
fn wrapper_refusals() {
    cases(400, |random| {
        let count = any_count(random);
        let (_, mut case) = built(random, count);
        damage(random, &mut case);
        let root: [u8; DIGEST_LENGTH] = case.root.as_slice().try_into().expect("not resized");
        let answer = tree::verify(
            &case.block,
            case.index,
            &case.tree,
            case.count,
            &case.salt,
            &root,
        );
        let expected = reference::verify(
            &case.block,
            case.index,
            &case.tree,
            case.count,
            &case.salt,
            &root,
        );
        match (answer, expected) {
            (Ok(()), Ok(())) => {}
            (Err(refusal), Err(expected)) => same_refusal(refusal, expected),
            (answer, expected) => panic!("{answer:?}, not {expected:?}"),
        }
        count_compared();
    });
    let refused = tree::build(0, b"", b"", &mut []);
    assert_eq!(refused, Err(Refusal::OutOfRange));
    let refused = tree::build(1, b"", b"", &mut []);
    assert_eq!(refused, Err(Refusal::LengthOrLimit));
}
