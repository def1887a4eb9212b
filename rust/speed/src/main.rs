//! Times of the proved library and of the reference, side by side: `cargo run --release -p speed`.
//!
//! Each row is one function: it makes its input, so that every byte was touched before, has both sides timed by
//! [`compare`] and checks that their results agree.

mod measure;
mod volume;

use gaffreel::tree::{BLOCK_LENGTH, LONGEST_SALT};
use measure::{compare, pattern, MIB};
use std::hint::black_box;

fn main() {
    measure::heading();
    digest_of_one_piece();
    digests_of_sectors();
    hmacs_of_sectors();
    tree_built();
    tree_verified();
    volume::journal_recovered();
    volume::sectors_checked();
    volume::sectors_verified();
    volume::sectors_checked_with_a_key();
    volume::recovery_by_sections();
    volume::recovery_by_tag_size();
}

/// The digest of 32 MiB in one piece.
fn digest_of_one_piece() {
    let message = pattern(32 * MIB);
    let mut proved = [0; 32];
    let mut rust = [0; 32];
    compare(
        "digest, 32 MiB in one piece",
        message.len(),
        || proved = gaffreel::sha256(black_box(&message)).expect("within the limit"),
        || rust = reference::sha256::digest(black_box(&message)).expect("within the limit"),
    );
    assert_eq!(proved, rust);
}

/// What the tag of a sector is made of: its number, 8 bytes, and its 512 bytes.
const MESSAGE_LENGTH: usize = 8 + 512;

/// The messages of 32 MiB of sectors, one behind the other.
fn messages_of_sectors() -> Vec<u8> {
    let count = 32 * MIB / 512;
    let mut messages = pattern(count * MESSAGE_LENGTH);
    for (sector, message) in messages.chunks_exact_mut(MESSAGE_LENGTH).enumerate() {
        message[..8].copy_from_slice(&(sector as u64).to_le_bytes());
    }
    messages
}

/// The digests of 32 MiB of sectors, as their tags are made.
fn digests_of_sectors() {
    let messages = messages_of_sectors();
    let count = messages.len() / MESSAGE_LENGTH;
    // Not zero, so that the pages are touched.
    let mut proved = vec![[1; 32]; count];
    let mut rust = vec![[1; 32]; count];
    compare(
        "digest, 65536 messages of 520 bytes",
        messages.len(),
        || {
            for (message, digest) in messages.chunks_exact(MESSAGE_LENGTH).zip(&mut proved) {
                *digest = gaffreel::sha256(black_box(message)).expect("within the limit");
            }
        },
        || {
            for (message, digest) in messages.chunks_exact(MESSAGE_LENGTH).zip(&mut rust) {
                *digest = reference::sha256::digest(black_box(message)).expect("within the limit");
            }
        },
    );
    assert_eq!(proved, rust);
}

/// The HMACs of 32 MiB of sectors, all under one key. The C interface takes the key with each message, and so computes the states behind
/// its two pads each time; so does Rust here, by the same call. What keeping them gains is in the rows of the volume.
fn hmacs_of_sectors() {
    let messages = messages_of_sectors();
    let count = messages.len() / MESSAGE_LENGTH;
    let key = pattern(32);
    // Not zero, so that the pages are touched.
    let mut proved = vec![[1; 32]; count];
    let mut rust = vec![[1; 32]; count];
    compare(
        "HMAC from the key on, 65536 messages of 520 bytes",
        messages.len(),
        || {
            for (message, mac) in messages.chunks_exact(MESSAGE_LENGTH).zip(&mut proved) {
                *mac = gaffreel::hmac_sha256(black_box(&key), black_box(message))
                    .expect("within the limits");
            }
        },
        || {
            for (message, mac) in messages.chunks_exact(MESSAGE_LENGTH).zip(&mut rust) {
                *mac = reference::hmac::hmac(black_box(&key), black_box(message))
                    .expect("within the limits");
            }
        },
    );
    assert_eq!(proved, rust);
}

/// An image of 32 MiB, with the salt and, once it is built, the tree.
struct Image {
    blocks: Vec<u8>,
    count: usize,
    salt: Vec<u8>,
    tree: Vec<u8>,
    root: [u8; 32],
}

impl Image {
    fn new() -> Image {
        let blocks = pattern(32 * MIB);
        let count = blocks.len() / BLOCK_LENGTH;
        Image {
            blocks,
            count,
            salt: pattern(LONGEST_SALT),
            // Not zero, so that the pages are touched.
            tree: vec![1; gaffreel::tree::length(count).expect("in range")],
            root: [1; 32],
        }
    }
}

/// The tree over the image.
fn tree_built() {
    let image = Image::new();
    let (count, salt, blocks) = (image.count, &image.salt, &image.blocks);
    let mut proved = (image.tree.clone(), image.root);
    let mut rust = (image.tree.clone(), image.root);
    compare(
        "tree over 8192 blocks",
        blocks.len(),
        || {
            proved.1 = gaffreel::tree::build(count, salt, black_box(blocks), &mut proved.0)
                .expect("all lengths fit");
        },
        || {
            rust.1 = reference::tree::build(count, salt, black_box(blocks), &mut rust.0)
                .expect("all lengths fit");
        },
    );
    assert!(proved == rust);
}

/// Each block of the image verified in turn: three digests to a block, as its path has.
fn tree_verified() {
    let mut image = Image::new();
    image.root = gaffreel::tree::build(image.count, &image.salt, &image.blocks, &mut image.tree)
        .expect("all lengths fit");
    let (count, salt, tree, root) = (image.count, &image.salt, &image.tree, &image.root);
    let mut proved = 0;
    let mut rust = 0;
    compare(
        "8192 blocks verified",
        image.blocks.len(),
        || {
            proved = 0;
            for (index, block) in image.blocks.chunks_exact(BLOCK_LENGTH).enumerate() {
                let answer =
                    gaffreel::tree::verify(black_box(block), index, tree, count, salt, root);
                proved += usize::from(answer.is_ok());
            }
        },
        || {
            rust = 0;
            for (index, block) in image.blocks.chunks_exact(BLOCK_LENGTH).enumerate() {
                let answer =
                    reference::tree::verify(black_box(block), index, tree, count, salt, root);
                rust += usize::from(answer.is_ok());
            }
        },
    );
    assert_eq!((proved, rust), (count, count));
}
