//! `gaffreel dump`.

use crate::setting::{with_sections, Ended, Folder, ACROSS_SECTORS, OTHER, SAMPLE, TAG_20};
use volumes::{padding_place, put_id, Entry};

const SAMPLE_LAYOUT: &str = "\
reserved sectors (r)     0
tag size in bytes (T)    32
run length (N)           16
tag area (A)             8
journal sections (S)     1
entries of a section (E) 80
section length (M)       88
provided sectors (P)     16
base (B)                 96
sectors needed           120
length of the image      123
";

#[test]
fn a_fresh_volume() {
    let folder = Folder::with("a", &volumes::formatted(&SAMPLE, 3));
    let expected = format!(
        "{SAMPLE_LAYOUT}\n\
         section 0: never used\n\n\
         next commit id: 1\n\
         sections to replay: none\n\
         open: taken, 0 stores to come\n"
    );
    assert_eq!(folder.run(&["dump", "a"]), Ended::good(&expected));
}

/// Whole, torn and misplaced sections, and the order by id.
#[test]
fn sections_and_entries() {
    let layout = reference::volume::Layout {
        sections: 4,
        ..OTHER
    };
    let (one, two) = (
        [Entry::new(3, 1)],
        [Entry::new(4, 1), Entry::new(10, 2).with_wrong_tag()],
    );
    let mut volume = with_sections(&layout, &[(0, 5, &two), (1, 2, &one), (2, 7, &two)]);
    put_id(&mut volume, &layout.geometry().unwrap(), 2, 9, 3);
    let folder = Folder::with("a", &volume);
    let ended = folder.run(&["dump", "a", "--entries", "--reserved", "2"]);
    let (_, journal) = ended.text().split_once("\n\n").unwrap();
    assert_eq!(
        journal,
        "section 0: commit id 5, whole, 2 used entries\n  \
           entry 0: sector 4, the tag fits\n  \
           entry 1: sector 10, the tag does not fit\n\
         section 1: commit id 2, whole, 1 used entry\n  \
           entry 0: sector 3, the tag fits\n\
         section 2: commit id 7, torn: the scan stops at sector 9, which has id 3; 2 used entries before it\n  \
           entry 0: sector 4, the tag fits\n  \
           entry 1: sector 10, the scan does not reach the data\n\
         section 3: never used\n\n\
         next commit id: 8\n\
         sections to replay, in order: 1 0\n\
         open: refused 6\n"
    );
    assert_eq!(ended.status, 2);
    assert!(ended
        .err
        .starts_with("gaffreel: a: refused 6: entry 1 of the journal's section 0 "));
    let without = folder.run(&["dump", "a", "--reserved=2"]);
    assert!(!without.text().contains("entry 0"));
    assert!(folder.get("a") == volume);
}

/// What stands behind a tag in an entry is no part of the tag.
#[test]
fn tags_of_20_bytes() {
    let mut volume = with_sections(&TAG_20, &[(0, 1, &[Entry::new(5, 1), Entry::new(7, 2)])]);
    let geometry = TAG_20.geometry().unwrap();
    let padding = padding_place(&geometry, 1);
    assert_eq!(padding.len(), 4);
    let section = &mut volume[geometry.journal() * 512..];
    section[padding].fill(9);
    let folder = Folder::with("a", &volume);
    let ended = folder.run(&["dump", "a", "--entries"]);
    let expected = "\
reserved sectors (r)     0
tag size in bytes (T)    20
run length (N)           8
tag area (A)             8
journal sections (S)     1
entries of a section (E) 96
section length (M)       104
provided sectors (P)     8
base (B)                 112
sectors needed           128
length of the image      128

section 0: commit id 1, whole, 2 used entries
  entry 0: sector 5, the tag fits
  entry 1: sector 7, the tag fits

next commit id: 2
sections to replay, in order: 0
open: taken, 4 stores to come
";
    assert_eq!(ended, Ended::good(expected));
}

/// Two stores of one entry, three of another.
#[test]
fn a_tag_across_two_sectors() {
    let entries = [Entry::new(16, 1), Entry::new(17, 2)];
    let folder = Folder::with("a", &with_sections(&ACROSS_SECTORS, &[(0, 1, &entries)]));
    let ended = folder.run(&["dump", "a"]);
    let end = "open: taken, 5 stores to come\n";
    assert!(ended.text().ends_with(end), "{}", ended.text());
}

#[test]
fn what_an_open_would_replay() {
    let folder = Folder::with("a", &with_sections(&SAMPLE, &[(0, 1, &[Entry::new(5, 1)])]));
    let ended = folder.run(&["dump", "a"]);
    assert_eq!(ended.status, 0);
    let end = "next commit id: 2\nsections to replay, in order: 0\nopen: taken, 2 stores to come\n";
    assert!(ended.text().ends_with(end), "{}", ended.text());
}

#[test]
fn ids_used_up_and_no_superblock() {
    let mut volume = volumes::formatted(&SAMPLE, 0);
    put_id(&mut volume, &SAMPLE.geometry().unwrap(), 0, 3, u64::MAX);
    let folder = Folder::with("a", &volume);
    let ended = folder.run(&["dump", "a"]);
    assert_eq!(ended.status, 2);
    let end = "next commit id: none is left\nsections to replay: none\nopen: refused 10\n";
    assert!(ended.text().ends_with(end), "{}", ended.text());
    folder.put("zero", &[0; 4096]);
    let zero = folder.run(&["dump", "zero"]);
    assert_eq!((zero.status, zero.text()), (2, "open: refused 3\n"));
    assert!(zero.err.starts_with("gaffreel: zero: refused 3: "));
}
