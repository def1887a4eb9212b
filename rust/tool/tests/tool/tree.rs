//! `gaffreel tree build` and `gaffreel tree verify`.

use crate::setting::{Ended, Folder};
use random::Random;

const BLOCK: usize = 4096;

fn image(seed: u64, blocks: usize) -> Vec<u8> {
    Random::from_seed(seed).bytes(blocks * BLOCK)
}

fn hex(bytes: &[u8]) -> String {
    bytes.iter().map(|byte| format!("{byte:02x}")).collect()
}

#[test]
fn as_the_reference_builds_it() {
    let folder = Folder::new();
    for (count, salt) in [
        (1, vec![]),
        (1, vec![7; 8]),
        (2, vec![0xab; 8]),
        (129, vec![1; 32]),
        (300, vec![]),
    ] {
        let image = image(count as u64, count);
        folder.put("image", &image);
        let mut tree = vec![0; reference::tree::length(count).unwrap()];
        let root = reference::tree::build(count, &salt, &image, &mut tree).unwrap();
        let (root, salt) = (hex(&root), hex(&salt));
        let built = folder.run(&["tree", "build", "image", "tree", "--salt", &salt]);
        assert_eq!(built, Ended::good(&format!("{root}\n")));
        assert!(folder.get("tree") == tree);
        let verified = folder.run(&["tree", "verify", "image", "tree", &root, "--salt", &salt]);
        assert_eq!(verified, Ended::good("bad 0\n"));
    }
    assert_eq!(folder.names(), ["image", "tree"]);
}

/// A bad data block is level -1; a bad hash block fails all blocks below it, at its level.
#[test]
fn bad_blocks() {
    let count = 130;
    let mut data = image(1, count);
    let folder = Folder::with("image", &data);
    let root = folder
        .run(&["tree", "build", "image", "tree"])
        .text()
        .trim_end()
        .to_string();
    let verify = || folder.run(&["tree", "verify", "image", "tree", &root]);
    for block in [3, 128] {
        data[block * BLOCK] ^= 1;
    }
    folder.put("image", &data);
    let two = "bad-block 3 level -1\nbad-block 128 level -1\nbad 2\n";
    assert_eq!(verify(), Ended::with(1, two, ""));
    // The second hash block of level 0 stands behind the root block and the first.
    let mut tree = folder.get("tree");
    tree[2 * BLOCK + 100] ^= 1;
    folder.put("tree", &tree);
    let three = "bad-block 3 level -1\nbad-block 128 level 0\nbad-block 129 level 0\nbad 3\n";
    assert_eq!(verify(), Ended::with(1, three, ""));
    let upper = root.to_uppercase();
    assert_eq!(
        folder
            .run(&["tree", "verify", "image", "tree", &upper])
            .text(),
        three
    );
    let other = folder.run(&["tree", "verify", "image", "tree", &"00".repeat(32)]);
    assert_eq!(other.status, 1);
    assert!(
        other.text().starts_with("bad-block 0 level 1\n") && other.text().ends_with("bad 130\n")
    );
}

#[test]
fn what_is_refused() {
    let folder = Folder::with("odd", &[0; BLOCK + 1]);
    folder.put("empty", &[]);
    let many = std::fs::File::create(folder.path("many")).unwrap();
    many.set_len(16_385 * BLOCK as u64).unwrap();
    let zero = "00".repeat(32);
    for (name, number, said) in [
        ("odd", 1, "the image is not whole blocks of 4096 bytes: "),
        (
            "empty",
            2,
            "the image has no block, or more than 16384 blocks",
        ),
        (
            "many",
            2,
            "the image has no block, or more than 16384 blocks",
        ),
    ] {
        let err = format!("gaffreel: {name}: refused {number}: {said}");
        let built = folder.run(&["tree", "build", name, "tree"]);
        assert_eq!((built.status, built.text()), (2, ""));
        assert!(built.err.starts_with(&err), "{}", built.err);
        let verified = folder.run(&["tree", "verify", name, "tree", &zero]);
        let refused = format!("refused {number}\n");
        assert_eq!((verified.status, verified.text()), (2, refused.as_str()));
        assert!(verified.err.starts_with(&err), "{}", verified.err);
    }
    folder.put("image", &[0; 2 * BLOCK]);
    folder.put("single", &[0; BLOCK]);
    let two = "the tree over 2 blocks has 4096 bytes: ";
    let one = "the tree over 1 block has 0 bytes: ";
    for (name, length, said) in [
        ("image", 0, two),
        ("image", BLOCK - 1, two),
        ("image", BLOCK + 1, two),
        ("single", 1, one),
        ("single", BLOCK, one),
    ] {
        folder.put("tree", &vec![0; length]);
        let verified = folder.run(&["tree", "verify", name, "tree", &zero]);
        assert_eq!((verified.status, verified.text()), (2, "refused 1\n"));
        let err = format!("gaffreel: tree: refused 1: {said}");
        assert!(verified.err.starts_with(&err), "{}", verified.err);
    }
}

/// The tree over one block is an empty file, which must be there, and the block is level -1.
#[test]
fn one_block() {
    let mut data = image(1, 1);
    let folder = Folder::with("image", &data);
    let built = folder.run(&["tree", "build", "image", "tree"]);
    let root = hex(&reference::sha256::digest(&data).unwrap());
    assert_eq!(built, Ended::good(&format!("{root}\n")));
    assert!(folder.get("tree").is_empty());
    let verify = |tree: &str| folder.run(&["tree", "verify", "image", tree, &root]);
    assert_eq!(verify("tree"), Ended::good("bad 0\n"));
    let missing = verify("missing");
    assert_eq!((missing.status, missing.text()), (3, ""));
    data[BLOCK - 1] ^= 1;
    folder.put("image", &data);
    assert_eq!(
        verify("tree"),
        Ended::with(1, "bad-block 0 level -1\nbad 1\n", "")
    );
}

#[test]
fn the_image_is_not_overwritten() {
    let folder = Folder::with("image", &[0; BLOCK]);
    std::os::unix::fs::symlink("image", folder.path("link")).unwrap();
    for name in ["image", "./image", "link"] {
        let ended = folder.run(&["tree", "build", "image", name]);
        assert_eq!((ended.status, ended.text()), (3, ""));
        assert!(ended.err.contains("is the image itself"));
    }
    assert!(folder.get("image") == [0; BLOCK]);
}
