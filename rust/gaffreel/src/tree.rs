//! The hash tree of dm-verity, format 1, over a read-only image.

use crate::ffi;
use crate::refusal::Refusal;
use crate::sha256::DIGEST_LENGTH;

/// The length of a data block and of a hash block, in bytes.
pub const BLOCK_LENGTH: usize = 4096;

/// The most data blocks.
pub const MOST_BLOCKS: usize = 16_384;

/// The longest salt, in bytes.
pub const LONGEST_SALT: usize = 32;

/// The length in bytes of the tree over `count` data blocks: 1 to [`MOST_BLOCKS`]. Over one block the tree is empty.
pub fn length(count: usize) -> Option<usize> {
    (1..=MOST_BLOCKS)
        .contains(&count)
        .then(|| ffi::tree_length(count))
}

/// Builds the tree over the `count` data blocks of an image into `tree`, which is [`length`] of the count long, and
/// returns the root digest. The salt has at most [`LONGEST_SALT`] bytes. After a refusal the tree is as it was.
pub fn build(
    count: usize,
    salt: &[u8],
    image: &[u8],
    tree: &mut [u8],
) -> Result<[u8; DIGEST_LENGTH], Refusal> {
    let mut root = [0; DIGEST_LENGTH];
    Refusal::check(ffi::tree_build(count, salt, image, tree, &mut root))?;
    Ok(root)
}

/// Verifies the data block with this index, of `count`, against the tree and the root digest.
pub fn verify(
    block: &[u8],
    index: usize,
    tree: &[u8],
    count: usize,
    salt: &[u8],
    root: &[u8; DIGEST_LENGTH],
) -> Result<(), Refusal> {
    let mut level = [0; 4];
    let answer = ffi::tree_verify(block, index, tree, count, salt, root, &mut level);
    Refusal::check_level(answer, level)
}
