//! The hash tree of dm-verity, format 1, over a read-only image: document 01, "Hash tree", document 02, order 2, and source document 003.
//!
//! Data and hash blocks have 4,096 bytes. Level 0 holds the digests of the data blocks, each further level those of the
//! level below, up to one block; a level's last block ends with zeros. The tree has its levels root first. A digest is
//! that of the salt and the block behind it, and the root digest that of the salt and the root block. Over one data block there is
//! no level: the tree is empty, and the root digest is that of the salt and the data block.

use crate::sha256::{State, DIGEST_LENGTH};

/// The length of a data block and of a hash block, in bytes.
pub const BLOCK_LENGTH: usize = 4096;

/// The most data blocks.
pub const MOST_BLOCKS: usize = 16_384;

/// The longest salt, in bytes.
pub const LONGEST_SALT: usize = 32;

const DIGESTS_PER_BLOCK: usize = BLOCK_LENGTH / DIGEST_LENGTH;

/// Why a call was refused.
#[derive(Clone, Copy, Debug, PartialEq, Eq)]
pub enum Refusal {
    /// A buffer has another length than the count asks.
    WrongLength,
    /// The count, the salt's length or the index is out of range.
    OutOfRange,
    /// The tree does not verify; the highest failing level, the data block being level -1.
    Mismatch(i32),
}

impl Refusal {
    /// The refusal's number.
    pub fn number(self) -> u32 {
        match self {
            Refusal::WrongLength => 1,
            Refusal::OutOfRange => 2,
            Refusal::Mismatch(_) => 12,
        }
    }
}

/// The length in bytes of the tree over `count` data blocks, if there can be so many.
pub fn length(count: usize) -> Option<usize> {
    (1..=MOST_BLOCKS)
        .contains(&count)
        .then(|| level_sizes(count).iter().sum::<usize>() * BLOCK_LENGTH)
}

/// Builds the tree over an image of `count` data blocks into `tree`, and returns the root digest. After a refusal the
/// tree is as it was.
pub fn build(
    count: usize,
    salt: &[u8],
    image: &[u8],
    tree: &mut [u8],
) -> Result<[u8; DIGEST_LENGTH], Refusal> {
    let length = length(count).ok_or(Refusal::OutOfRange)?;
    if salt.len() > LONGEST_SALT {
        return Err(Refusal::OutOfRange);
    }
    if image.len() != count * BLOCK_LENGTH || tree.len() != length {
        return Err(Refusal::WrongLength);
    }
    if count == 1 {
        return Ok(digest(salt, image));
    }
    let mut end = length;
    let mut top = level_over(salt, image);
    loop {
        let start = end - top.len();
        tree[start..end].copy_from_slice(&top);
        if top.len() == BLOCK_LENGTH {
            return Ok(digest(salt, &top));
        }
        end = start;
        top = level_over(salt, &top);
    }
}

/// Verifies the data block with this index against the tree and the root digest.
pub fn verify(
    block: &[u8],
    index: usize,
    tree: &[u8],
    count: usize,
    salt: &[u8],
    root: &[u8],
) -> Result<(), Refusal> {
    if block.len() != BLOCK_LENGTH || root.len() != DIGEST_LENGTH {
        return Err(Refusal::WrongLength);
    }
    let length = length(count).ok_or(Refusal::OutOfRange)?;
    if salt.len() > LONGEST_SALT || index >= count {
        return Err(Refusal::OutOfRange);
    }
    if tree.len() != length {
        return Err(Refusal::WrongLength);
    }

    // From the data block up: each block's digest, and the bytes above it that it must equal.
    let mut computed = vec![digest(salt, block)];
    let mut above = Vec::new();
    let mut end = length / BLOCK_LENGTH;
    let mut below = index;
    for size in level_sizes(count) {
        let start = end - size;
        let parent = &tree[(start + below / DIGESTS_PER_BLOCK) * BLOCK_LENGTH..][..BLOCK_LENGTH];
        above.push(&parent[below % DIGESTS_PER_BLOCK * DIGEST_LENGTH..][..DIGEST_LENGTH]);
        computed.push(digest(salt, parent));
        end = start;
        below /= DIGESTS_PER_BLOCK;
    }
    above.push(root);

    for place in (0..computed.len()).rev() {
        if computed[place] != above[place] {
            return Err(Refusal::Mismatch(place as i32 - 1));
        }
    }
    Ok(())
}

/// The number of hash blocks in each level, level 0 first.
fn level_sizes(count: usize) -> Vec<usize> {
    let mut size = count;
    let mut sizes = Vec::new();
    while size > 1 {
        size = size.div_ceil(DIGESTS_PER_BLOCK);
        sizes.push(size);
    }
    sizes
}

/// The level over these blocks: their digests, and zeros to the end of the last hash block.
fn level_over(salt: &[u8], blocks: &[u8]) -> Vec<u8> {
    let mut level = Vec::new();
    for block in blocks.chunks_exact(BLOCK_LENGTH) {
        level.extend_from_slice(&digest(salt, block));
    }
    level.resize(level.len().next_multiple_of(BLOCK_LENGTH), 0);
    level
}

/// The digest of the salt and a block.
fn digest(salt: &[u8], block: &[u8]) -> [u8; DIGEST_LENGTH] {
    let mut state = State::new();
    state.update(salt).expect("short");
    state.update(block).expect("short");
    state.finish().expect("short")
}

#[cfg(test)]
mod tests {
    use super::*;

    const IMAGE_BLOCKS: usize = 300;

    fn image() -> Vec<u8> {
        (0..IMAGE_BLOCKS * BLOCK_LENGTH)
            .map(|i| (7 * i + 13 * (i / BLOCK_LENGTH)) as u8)
            .collect()
    }

    fn salt(length: usize) -> Vec<u8> {
        (0..length).map(|i| (31 * i + 5) as u8).collect()
    }

    fn hex(digest: [u8; DIGEST_LENGTH]) -> String {
        digest.iter().map(|byte| format!("{byte:02x}")).collect()
    }

    struct Built {
        tree: Vec<u8>,
        root: [u8; DIGEST_LENGTH],
    }

    fn built(count: usize, salt: &[u8], image: &[u8]) -> Built {
        let mut tree = vec![0xa5; length(count).unwrap()];
        let root = build(count, salt, &image[..count * BLOCK_LENGTH], &mut tree).unwrap();
        Built { tree, root }
    }

    /// Count, length of the salt, root digest, and digest of the tree's bytes, as `veritysetup format --no-superblock`
    /// makes them of the same image and salt.
    const MADE_BY_VERITYSETUP: [(usize, usize, &str, &str); 6] = [
        (
            1,
            8,
            "875ad411a659a6327632f3de5ea6d1fcd7e928544539de22170262ffa2db9072",
            "e3b0c44298fc1c149afbf4c8996fb92427ae41e4649b934ca495991b7852b855",
        ),
        (
            2,
            32,
            "32e0b2170335ed9370cc38c69af81f830a6771ae84295c5431b61929682c49f1",
            "221e0d192f9e977883fed9a3f32805e3d4d8d6e0d9dfa6fa341f1a6f6c55861c",
        ),
        (
            127,
            8,
            "366805b27a944a2d3cba721378edc62ecd9a7bd176c6a95cd6c8af7ac4a7463c",
            "76f7dcb475a6fff37f365a5aa09ba6f51d268c4d2c608718f355e68913ef835c",
        ),
        (
            128,
            0,
            "9a79f8ca0259367dd25e1fe955adac002fa4ff6c6cd3c2ff70f6266fc08a9818",
            "9a79f8ca0259367dd25e1fe955adac002fa4ff6c6cd3c2ff70f6266fc08a9818",
        ),
        (
            129,
            8,
            "753c7a150da9ee314b2347920a5866ff5d26cb3955b874786c9418b282fd6f04",
            "0016875fd4afad153d60f3a48b89891e006109874e17a2fb3d5776e2f766c89b",
        ),
        (
            300,
            32,
            "4dd8b2269f3ecdc616ecdb803896177fd0aadb90bc70da88ecfa7da7a640d313",
            "6344ca7ebff766bfc445fc79054bf4f10f72874ad65137ca73d9d32e8e1d6918",
        ),
    ];

    #[test]
    fn trees_of_veritysetup() {
        let image = image();
        for (count, salt_length, root, tree) in MADE_BY_VERITYSETUP {
            let salt = salt(salt_length);
            let built = built(count, &salt, &image);
            assert_eq!(hex(built.root), root);
            assert_eq!(hex(digest(&[], &built.tree)), tree);
            for (index, block) in image.chunks_exact(BLOCK_LENGTH).take(count).enumerate() {
                let answer = verify(block, index, &built.tree, count, &salt, &built.root);
                assert_eq!(answer, Ok(()));
            }
        }
    }

    /// One data block has no hash block: only the block itself can fail, and no tree but an empty one is taken.
    #[test]
    fn one_block() {
        let image = image();
        let built = built(1, b"salt", &image);
        let block = &image[..BLOCK_LENGTH];
        assert_eq!(built.tree, []);
        assert_eq!(built.root, digest(b"salt", block));
        let verify =
            |block: &[u8], tree: &[u8], root: &[u8]| verify(block, 0, tree, 1, b"salt", root);
        assert_eq!(verify(block, &[], &built.root), Ok(()));
        for (block, root) in [
            (&image[BLOCK_LENGTH..2 * BLOCK_LENGTH], &built.root),
            (block, &[0; DIGEST_LENGTH]),
        ] {
            assert_eq!(verify(block, &[], root), Err(Refusal::Mismatch(-1)));
        }
        for length in [1, BLOCK_LENGTH] {
            let mut tree = vec![0xa5; length];
            let answer = verify(block, &tree, &built.root);
            assert_eq!(answer, Err(Refusal::WrongLength));
            let answer = build(1, b"salt", block, &mut tree);
            assert_eq!(answer, Err(Refusal::WrongLength));
            assert_eq!(tree, vec![0xa5; length]);
        }
    }

    #[test]
    fn lengths() {
        for (count, blocks) in [(1, 0), (2, 1), (128, 1), (129, 3), (300, 4), (16_384, 129)] {
            assert_eq!(length(count), Some(blocks * BLOCK_LENGTH));
        }
        for count in [0, 16_385, usize::MAX] {
            assert_eq!(length(count), None);
        }
    }

    /// Damage to each part of a path, and the highest level where it shows.
    #[test]
    fn failing_levels() {
        const COUNT: usize = 129;
        const INDEX: usize = 128;
        let image = image();
        let salt = salt(8);
        let good = built(COUNT, &salt, &image);
        let block = &image[INDEX * BLOCK_LENGTH..][..BLOCK_LENGTH];
        // The tree's blocks: the root, the digests of blocks 0 to 127, the digest of block 128.
        let damaged_at = |byte: usize| {
            let mut tree = good.tree.clone();
            tree[byte] ^= 1;
            verify(block, INDEX, &tree, COUNT, &salt, &good.root)
        };
        assert_eq!(damaged_at(0), Err(Refusal::Mismatch(1)));
        assert_eq!(damaged_at(DIGEST_LENGTH), Err(Refusal::Mismatch(1)));
        assert_eq!(damaged_at(BLOCK_LENGTH), Ok(()));
        assert_eq!(damaged_at(2 * BLOCK_LENGTH), Err(Refusal::Mismatch(0)));
        let padding = good.tree.len() - 1;
        assert_eq!(damaged_at(padding), Err(Refusal::Mismatch(0)));

        let verify = |block: &[u8], index, salt: &[u8], root: &[u8]| {
            verify(block, index, &good.tree, COUNT, salt, root)
        };
        let other = &image[..BLOCK_LENGTH];
        assert_eq!(
            verify(other, INDEX, &salt, &good.root),
            Err(Refusal::Mismatch(-1))
        );
        assert_eq!(
            verify(block, 0, &salt, &good.root),
            Err(Refusal::Mismatch(-1))
        );
        assert_eq!(
            verify(block, INDEX, &salt, &[0; DIGEST_LENGTH]),
            Err(Refusal::Mismatch(1))
        );
        assert_eq!(
            verify(block, INDEX, b"", &good.root),
            Err(Refusal::Mismatch(1))
        );
    }

    /// Each refusal where the rules before it are not met and those behind it are.
    #[test]
    fn order_of_refusals() {
        let long = [0; LONGEST_SALT + 1];
        let salt = &long[..LONGEST_SALT];
        let block = [0; BLOCK_LENGTH];
        let root = [0; DIGEST_LENGTH];
        for (block, root) in [(&block[1..], &root[..]), (&block[..], &root[1..])] {
            assert_eq!(
                verify(block, 0, &[], 0, &long, root),
                Err(Refusal::WrongLength)
            );
        }
        for (index, count, salt) in [
            (0, 0, salt),
            (0, 16_385, salt),
            (0, 1, &long[..]),
            (1, 1, salt),
        ] {
            assert_eq!(
                verify(&block, index, &[], count, salt, &root),
                Err(Refusal::OutOfRange)
            );
        }
        assert_eq!(
            verify(&block, 0, &[], 2, salt, &root),
            Err(Refusal::WrongLength)
        );
        assert_eq!(
            verify(&block, 0, &block, 2, salt, &root),
            Err(Refusal::Mismatch(0))
        );

        let image = [0; 2 * BLOCK_LENGTH];
        let mut tree = [0xa5; BLOCK_LENGTH];
        for (count, salt) in [(0, salt), (16_385, salt), (1, &long[..])] {
            let answer = build(count, salt, &[], &mut []);
            assert_eq!(answer, Err(Refusal::OutOfRange));
        }
        assert_eq!(build(2, salt, &[], &mut tree), Err(Refusal::WrongLength));
        assert_eq!(
            build(2, salt, &image, &mut tree[1..]),
            Err(Refusal::WrongLength)
        );
        assert_eq!(tree, [0xa5; BLOCK_LENGTH]);
        assert!(build(2, salt, &image, &mut tree).is_ok());
    }
}
