//! `gaffreel drill`.

use crate::setting::{damage, with_sections, Folder, ACROSS_SECTORS, OTHER, SAMPLE, TAG_20};
use reference::volume::Layout;
use volumes::{put_id, Entry};

/// The number on the line that starts with these words.
fn number(text: &str, words: &str) -> u64 {
    let line = text.lines().find_map(|line| line.strip_prefix(words));
    line.unwrap().trim().parse().unwrap()
}

/// Drills a volume, which every cut must survive and which must not be changed.
fn survives(volume: &[u8], words: &[&str]) -> String {
    let folder = Folder::with("a", volume);
    let ended = folder.run(&[&["drill", "a"], words].concat());
    assert_eq!(
        (ended.status, ended.err.as_str()),
        (0, ""),
        "{}",
        ended.text()
    );
    assert!(ended.text().ends_with("every cut survived\n"));
    assert!(folder.get("a") == volume);
    assert_eq!(folder.names(), ["a"]);
    ended.text().into()
}

#[test]
fn the_sample_by_the_defaults() {
    let text = survives(&volumes::formatted(&SAMPLE, 0), &[]);
    assert!(text.starts_with("seed 1\nbatches 8\nstores "));
    let (stores, cuts) = (number(&text, "stores"), number(&text, "cuts"));
    assert!(stores > 8 * 88 && cuts == stores + 1, "{text}");
    assert!(number(&text, "recoveries cut") > 8, "{text}");
}

#[test]
fn the_seed_decides() {
    let volume = volumes::formatted(&SAMPLE, 0);
    let drill = |seed| survives(&volume, &["--batches=2", "--seed", seed]);
    assert_eq!(drill("5"), drill("5"));
    let stores: Vec<u64> = ["1", "2", "3", "4"]
        .map(|seed| number(&drill(seed), "stores"))
        .into();
    assert!(stores.iter().any(|other| *other != stores[0]));
}

/// Each tag size, with sections to replay from the start, sectors bad at the start and bytes that must stay.
#[test]
fn volumes_with_a_past() {
    for tag_size in [1, 8, 16, 20, 32] {
        let layout = Layout { tag_size, ..OTHER };
        let (old, new) = ([Entry::new(3, 1), Entry::new(4, 1)], [Entry::new(3, 2)]);
        let mut volume = with_sections(&layout, &[(0, 1, &old), (1, 2, &new)]);
        for sector in [4, 5, 7] {
            damage(&mut volume, &layout, sector);
        }
        volume.extend([9; 512]);
        let words = ["--reserved=2", "--batches=5", "--writes=4", "--seed=3"];
        let text = survives(&volume, &words);
        assert!(number(&text, "recoveries cut") > 500, "{text}");
    }
}

/// Tags that lie across two sectors: each cut between the two stores of one is survived, in a batch and in its recovery. The same
/// history with tags of 32 bytes, none of which does, has fewer stores, and its recoveries have fewer.
#[test]
fn tags_across_two_sectors() {
    let entries = [16, 17, 18].map(|sector| Entry::new(sector, 1));
    let drill = |tag_size| {
        let layout = Layout {
            tag_size,
            ..ACROSS_SECTORS
        };
        let volume = with_sections(&layout, &[(0, 1, &entries)]);
        let text = survives(&volume, &["--batches=6", "--writes=12"]);
        let (stores, cuts) = (number(&text, "stores"), number(&text, "cuts"));
        assert!(stores > 6 * 88 && cuts == stores + 1, "{text}");
        (stores, number(&text, "recoveries cut"))
    };
    let (across, within) = (drill(ACROSS_SECTORS.tag_size), drill(32));
    assert!(
        across.0 > within.0 && across.1 > within.1,
        "{across:?} {within:?}"
    );
    let fresh = volumes::formatted(&TAG_20, 0);
    survives(&fresh, &["--batches=2", "--writes=6"]);
}

#[test]
fn few_cuts_of_each_recovery() {
    let volume = with_sections(&SAMPLE, &[(0, 1, &[Entry::new(3, 1); 40])]);
    let cut = |most| {
        let text = survives(
            &volume,
            &["--batches=1", "--writes=1", "--recovery-cuts", most],
        );
        number(&text, "recoveries cut")
    };
    // Before the first store the section has 80 stores to replay, and from the 88th on it has 2.
    assert_eq!([cut("0"), cut("1"), cut("2"), cut("7")], [0, 4, 8, 13]);
    assert_eq!(cut("18446744073709551615"), 86);
}

#[test]
fn what_is_refused() {
    let folder = Folder::with("zero", &[0; 120 * 512]);
    let zero = folder.run(&["drill", "zero"]);
    assert_eq!((zero.status, zero.text()), (2, ""));
    assert!(zero.err.starts_with("gaffreel: zero: refused 3: "));
    // One id is left, and the second batch has none.
    let mut volume = volumes::formatted(&SAMPLE, 0);
    put_id(&mut volume, &SAMPLE.geometry().unwrap(), 0, 3, u64::MAX - 2);
    folder.put("last-id", &volume);
    let used_up = folder.run(&["drill", "last-id"]);
    assert_eq!(used_up.status, 2);
    assert!(used_up.err.starts_with("gaffreel: last-id: refused 10: "));
}
