//! `gaffreel read` and `gaffreel write`.

use crate::setting::{damage, with_sections, Ended, Folder, OTHER, SAMPLE};
use reference::volume::Layout;
use std::fs;
use volumes::{put_id, Entry};

/// Bytes that differ from sector to sector.
fn pattern(sectors: usize) -> Vec<u8> {
    (0..sectors * 512)
        .map(|i| (i / 512 * 7 + i % 251) as u8)
        .collect()
}

#[test]
fn what_is_written_is_read() {
    let folder = Folder::with("a", &volumes::formatted(&SAMPLE, 0));
    let bytes = pattern(3);
    let said = "written: 94 stores\nacknowledged: 1 of 1 batch\n";
    assert_eq!(
        folder.run_with_input(&["write", "a", "5"], &bytes),
        Ended::good(said)
    );
    let read = folder.run(&["read", "a", "5", "--count", "3"]);
    assert_eq!((read.status, read.err.as_str()), (0, ""));
    assert!(read.out == bytes);
    assert_eq!(folder.run(&["read", "a", "6"]).out, bytes[512..1024]);
    assert_eq!(folder.run(&["read", "a", "4"]).out, [0; 512]);
    let check = folder.run(&["check", "a"]);
    assert_eq!(
        check.text(),
        "tag 32 run 16 sections 1 provided 16\nreplay 6\nbad 0\n"
    );
}

/// A batch takes E entries, 80 with a tag of 32 bytes.
#[test]
fn as_many_batches_as_are_needed() {
    let layout = Layout {
        sections: 2,
        provided: 300,
        ..SAMPLE
    };
    let folder = Folder::with("a", &volumes::formatted(&layout, 0));
    let bytes = pattern(161);
    folder.put("in", &bytes);
    let said = "written: 586 stores\nacknowledged: 3 of 3 batches\n";
    assert_eq!(
        folder.run(&["write", "a", "100", "--input", "in"]),
        Ended::good(said)
    );
    let read = folder.run(&["read", "a", "100", "--count=161"]);
    assert!(read.out == bytes);
    let cut = folder.run(&["write", "a", "0", "--input", "in", "--cut-after", "336"]);
    let said = "recovered: 162 stores\ncut after 336 stores\nacknowledged: 2 of 3 batches\n";
    assert_eq!(cut, Ended::good(said));
    let read = folder.run(&["read", "a", "0", "--count=161"]);
    assert!(read.out[..160 * 512] == bytes[..160 * 512]);
    assert!(read.out[160 * 512..] == bytes[60 * 512..61 * 512]);
}

/// E by the tag's size, and each of the stores that write the sectors back: two, and three where a tag lies across two sectors.
#[test]
fn batches_of_each_entry_size() {
    for (tag_size, entries, across) in [(7, 160, 2), (13, 120, 5), (20, 96, 7), (30, 80, 12)] {
        let layout = Layout {
            log2_run: 8,
            tag_size,
            provided: 220,
            ..SAMPLE
        };
        let folder = Folder::with("a", &volumes::formatted(&layout, 0));
        let bytes = pattern(210);
        folder.put("in", &bytes);
        let batches = 210u64.div_ceil(entries);
        let stores = batches * (8 + entries) + 2 * 210 + across;
        let said =
            format!("written: {stores} stores\nacknowledged: {batches} of {batches} batches\n");
        let written = folder.run(&["write", "a", "0", "--input", "in"]);
        assert_eq!(written, Ended::good(&said));
        assert!(folder.run(&["read", "a", "0", "--count=210"]).out == bytes);
        assert_eq!(folder.run(&["check", "a"]).status, 0);
    }
}

#[test]
fn files_for_input_and_output() {
    let folder = Folder::with("a", &volumes::formatted(&OTHER, 0));
    let bytes = pattern(2);
    let write = ["write", "a", "1", "--reserved=2", "--input", "-"];
    assert_eq!(folder.run_with_input(&write, &bytes).status, 0);
    let read = ["read", "a", "1", "--reserved=2", "--count=2", "--output"];
    for (output, expected) in [("-", &bytes[..]), ("out", &[]), ("/dev/null", &[])] {
        let ended = folder.run(&[&read[..], &[output]].concat());
        assert_eq!((ended.status, &ended.out[..]), (0, expected));
    }
    assert!(folder.get("out") == bytes);
    assert!(!fs::metadata("/dev/null").unwrap().is_file());
    let image = folder.get("a");
    let itself = folder.run(&[&read[..], &["./a"]].concat());
    assert_eq!((itself.status, itself.text()), (3, ""));
    assert!(itself
        .err
        .starts_with("gaffreel: ./a: is the image itself: "));
    assert!(folder.get("a") == image);
}

/// The recovery is made in memory for a read, and stays for a write.
#[test]
fn an_image_with_something_to_replay() {
    let volume = with_sections(&SAMPLE, &[(0, 1, &[Entry::new(5, 9)])]);
    let folder = Folder::with("a", &volume);
    assert_eq!(folder.run(&["read", "a", "5"]).out, [9; 512]);
    assert!(folder.get("a") == volume);
    let said = "recovered: 2 stores\ncut after 0 stores\nacknowledged: 0 of 1 batch\n";
    let cut = ["write", "a", "7", "--cut-after", "0"];
    assert_eq!(folder.run_with_input(&cut, &[1; 512]), Ended::good(said));
    let home = SAMPLE.geometry().unwrap().home(5).unwrap();
    assert_eq!(folder.get("a")[home.data * 512..][..512], [9; 512]);
    assert_eq!(folder.run(&["read", "a", "7"]).out, [0; 512]);
}

#[test]
fn what_a_read_refuses() {
    let mut volume = volumes::formatted(&SAMPLE, 0);
    damage(&mut volume, &SAMPLE, 3);
    let folder = Folder::with("a", &volume);
    let bad = folder.run(&["read", "a", "2", "--count", "2", "--output", "out"]);
    let err = "gaffreel: a: refused 7: the tag of sector 3 does not fit its data: \
               if the volume has a key, name its file by --key-file; else write the sector again from a good copy\n";
    assert_eq!(bad, Ended::with(2, "", err));
    let beyond = folder.run(&["read", "a", "15", "--count", "2"]);
    let err = "gaffreel: a: refused 6: sector 16: the volume has no such sector: \
               name one below the number that it provides\n";
    assert_eq!(beyond, Ended::with(2, "", err));
    assert_eq!(folder.run(&["read", "a", "18446744073709551615"]).status, 2);
    assert_eq!(folder.names(), ["a"]);
    folder.put("a", &volume[..512]);
    assert_eq!(folder.run(&["read", "a", "0"]).status, 2);
}

/// Writes that are refused or cannot be made: image, sector, bytes of input, exit status, and what is said.
const REFUSED: [(&str, &str, usize, i32, &str); 6] = [
    (
        "a",
        "0",
        0,
        3,
        "standard input: 0 bytes are not whole sectors: ",
    ),
    (
        "a",
        "0",
        513,
        3,
        "standard input: 513 bytes are not whole sectors: ",
    ),
    ("a", "15", 1024, 2, "a: refused 6: sector 16: "),
    (
        "a",
        "18446744073709551615",
        512,
        2,
        "a: refused 6: sector 18446744073709551615: ",
    ),
    (
        "last-id",
        "0",
        512,
        2,
        "last-id: refused 10: the commit ids are used up: ",
    ),
    (
        "zero",
        "0",
        512,
        2,
        "zero: refused 3: the superblock is zero: ",
    ),
];

/// Each leaves the image as it was.
#[test]
fn what_a_write_refuses() {
    let mut volume = volumes::formatted(&SAMPLE, 0);
    let folder = Folder::with("a", &volume);
    put_id(&mut volume, &SAMPLE.geometry().unwrap(), 0, 3, u64::MAX - 1);
    folder.put("last-id", &volume);
    folder.put("zero", &[0; 120 * 512]);
    for (image, sector, length, status, said) in REFUSED {
        let before = folder.get(image);
        let ended = folder.run_with_input(&["write", image, sector], &vec![1; length]);
        assert_eq!((ended.status, ended.text()), (status, ""), "{}", ended.err);
        let start = format!("gaffreel: {said}");
        assert!(ended.err.starts_with(&start), "{}", ended.err);
        assert!(folder.get(image) == before);
    }
    let missing = folder.run(&["write", "a", "0", "--input", "none"]);
    assert_eq!(missing.status, 3);
    assert!(missing.err.starts_with("gaffreel: none: cannot be read: "));
    assert_eq!(folder.names(), ["a", "last-id", "zero"]);
}
