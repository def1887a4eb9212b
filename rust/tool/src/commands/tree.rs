//! `gaffreel tree build` and `gaffreel tree verify`: the hash tree over an image of whole blocks.

use super::Command;
use crate::arguments::{Arguments, Options};
use crate::failure::{Failure, Outcome};
use crate::progress::Progress;
use crate::{files, hexadecimal};
use gaffreel::tree::{self, BLOCK_LENGTH, LONGEST_SALT, MOST_BLOCKS};
use gaffreel::{Refusal, DIGEST_LENGTH};
use std::io::Write;
use std::path::Path;

const SALT: &str = "--salt";

/// The command that builds a tree.
pub const BUILD: Command = Command {
    name: "tree build",
    summary: "build the hash tree over an image",
    help: "\
Usage: gaffreel tree build IMAGE TREE [OPTION]...
Builds the hash tree over IMAGE, which is 1 to 16384 blocks of 4096 bytes, in the file TREE, and
prints the root digest. The tree over one block is empty, and so is the file.

  --salt HEX  salt of up to 32 bytes, as hexadecimal digits (default none)
",
    options: Options {
        valued: &[SALT],
        plain: &[],
    },
    run: build,
};

/// The command that verifies an image.
pub const VERIFY: Command = Command {
    name: "tree verify",
    summary: "verify every block of an image against tree and root digest",
    help: "\
Usage: gaffreel tree verify IMAGE TREE ROOT [OPTION]...
Verifies each block of IMAGE against TREE and the root digest ROOT, 64 hexadecimal digits. Prints a
line for each bad block, with the highest level that fails, and their number. Level -1 is the block
itself, 0 and above are hash blocks.

  --salt HEX  salt of up to 32 bytes, as hexadecimal digits (default none)

Exit status: 0 no bad block; 1 bad blocks; 2 refused; 3 usage, or a file cannot be read.
",
    options: Options {
        valued: &[SALT],
        plain: &[],
    },
    run: verify,
};

fn build(mut arguments: Arguments, out: &mut dyn Write) -> Result<Outcome, Failure> {
    let salt = salt(&arguments)?;
    let image_path = arguments.path("IMAGE")?;
    let tree_path = arguments.path("TREE")?;
    arguments.finish()?;
    if files::same(&image_path, &tree_path) {
        let reason = "is the image itself: name another file for the tree";
        return Err(Failure::file(&tree_path, reason));
    }

    let image = read_blocks(&image_path)?;
    let count = image.len() / BLOCK_LENGTH;
    let mut tree = vec![0; tree_length(&image_path, &image)?];
    let root = tree::build(count, &salt, &image, &mut tree)
        .map_err(|refusal| Failure::refused(&image_path, refusal))?;
    files::replace(&tree_path, &tree)?;
    writeln!(out, "{}", hexadecimal::encode(&root))?;
    Ok(Outcome::Clean)
}

fn verify(mut arguments: Arguments, out: &mut dyn Write) -> Result<Outcome, Failure> {
    let salt = salt(&arguments)?;
    let image_path = arguments.path("IMAGE")?;
    let tree_path = arguments.path("TREE")?;
    let root = arguments.operand("ROOT")?;
    let root = hexadecimal::decode(&root.to_string_lossy())
        .and_then(|bytes| <[u8; DIGEST_LENGTH]>::try_from(bytes).ok())
        .ok_or_else(|| Failure::usage("ROOT is 64 hexadecimal digits"))?;
    arguments.finish()?;

    let verified = verify_blocks(&image_path, &tree_path, &salt, &root);
    if let Err(Failure::Refused { number, .. }) = &verified {
        writeln!(out, "refused {number}")?;
    }
    let bad = verified?;
    for (index, level) in &bad {
        writeln!(out, "bad-block {index} level {level}")?;
    }
    writeln!(out, "bad {}", bad.len())?;
    Ok(match bad.is_empty() {
        true => Outcome::Clean,
        false => Outcome::Bad,
    })
}

/// The bad blocks, each with the highest failing level.
fn verify_blocks(
    image_path: &Path,
    tree_path: &Path,
    salt: &[u8],
    root: &[u8; DIGEST_LENGTH],
) -> Result<Vec<(usize, i32)>, Failure> {
    let image = read_blocks(image_path)?;
    let length = tree_length(image_path, &image)?;
    let tree = files::read_at_most(tree_path, length as u64 + 1)?;
    let blocks = image.chunks_exact(BLOCK_LENGTH);
    let count = blocks.len();
    let mut progress = Progress::new("verifying", count as u64);
    let mut bad = Vec::new();
    for (index, block) in blocks.enumerate() {
        match tree::verify(block, index, &tree, count, salt, root) {
            Ok(()) => {}
            Err(Refusal::Mismatch { level }) => bad.push((index, level)),
            Err(refusal) => {
                let blocks = if count == 1 { "block" } else { "blocks" };
                let meaning = format!(
                    "the tree over {count} {blocks} has {length} bytes: \
                     name the tree that was built over this image, or build it again"
                );
                return Err(Failure::refused_as(tree_path, refusal, meaning));
            }
        }
        progress.advance();
    }
    Ok(bad)
}

/// The bytes of an image. Of one that has too many blocks one block more than the most is read, so that it is refused.
fn read_blocks(path: &Path) -> Result<Vec<u8>, Failure> {
    files::read_at_most(path, ((MOST_BLOCKS + 1) * BLOCK_LENGTH) as u64)
}

/// The length of the tree over an image. Refused unless that is 1 to 16,384 whole blocks.
fn tree_length(path: &Path, image: &[u8]) -> Result<usize, Failure> {
    let length = tree::length(image.len().div_ceil(BLOCK_LENGTH)).ok_or_else(|| {
        let meaning = format!(
            "the image has no block, or more than {MOST_BLOCKS} blocks of {BLOCK_LENGTH} bytes: \
             split it, and build a tree over each part"
        );
        Failure::refused_as(path, Refusal::OutOfRange, meaning)
    })?;
    if !image.len().is_multiple_of(BLOCK_LENGTH) {
        let meaning = format!(
            "the image is not whole blocks of {BLOCK_LENGTH} bytes: \
             fill its last block up, or restore it from a whole copy"
        );
        return Err(Failure::refused_as(path, Refusal::LengthOrLimit, meaning));
    }
    Ok(length)
}

/// The salt; empty if it is not given.
fn salt(arguments: &Arguments) -> Result<Vec<u8>, Failure> {
    let Some(text) = arguments.value(SALT) else {
        return Ok(Vec::new());
    };
    match hexadecimal::decode(&text.to_string_lossy()) {
        Some(salt) if salt.len() <= LONGEST_SALT => Ok(salt),
        _ => Err(Failure::usage(format!(
            "{SALT} is up to {LONGEST_SALT} bytes, each two hexadecimal digits"
        ))),
    }
}
