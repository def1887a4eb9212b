//! `gaffreel check`, against the reference and on each kind of refused opening.

use crate::setting::{damage, with_sections, Ended, Folder, OTHER, SAMPLE};
use random::Reached;
use reference::volume::{check, Checked, Layout, Refusal, TagRule};
use std::fs::File;
use volumes::any::{any_volume, small_layout, with_journal};
use volumes::tag_sizes::TagSizes;
use volumes::{put_id, Entry};

/// The lines of document 01, "Bench program", and the exit status.
pub fn expected(checked: &Result<Checked, Refusal>) -> (i32, String) {
    let checked = match checked {
        Ok(checked) => checked,
        Err(refusal) => return (2, format!("refused {}\n", refusal.number())),
    };
    let layout = &checked.layout;
    let mut lines = format!(
        "tag {} run {} sections {} provided {}\nreplay {}\n",
        layout.tag_size,
        1 << layout.log2_run,
        layout.sections,
        layout.provided,
        checked.stores
    );
    for sector in &checked.bad {
        lines += &format!("bad-sector {sector}\n");
    }
    lines += &format!("bad {}\n", checked.bad.len());
    (i32::from(!checked.bad.is_empty()), lines)
}

/// Runs a check on a volume, and tests what it says, that standard error goes with it, and that the image stays.
fn agrees(folder: &Folder, volume: &[u8], reserved: u64) -> i32 {
    folder.put("a", volume);
    let number = reserved.to_string();
    let ended = folder.run(&["check", "a", "--reserved", &number]);
    let (status, lines) = expected(&check(volume, reserved, TagRule::Digest));
    assert_eq!((ended.status, ended.text()), (status, lines.as_str()));
    match status {
        2 => {
            let start = format!("gaffreel: a: {}: ", lines.trim_end());
            assert!(ended.err.starts_with(&start), "{}", ended.err);
        }
        _ => assert_eq!(ended.err, ""),
    }
    assert!(folder.get("a") == volume);
    status
}

#[test]
fn as_the_reference_says_of_any_volume() {
    let folder = Folder::new();
    let mut reached = Reached::new();
    let mut sizes = TagSizes::new();
    random::cases(500, |random| {
        let layout = small_layout(random);
        sizes.add(&layout);
        let mut volume = match random.number() % 3 {
            0 => any_volume(random, &layout),
            _ => with_journal(random, &layout),
        };
        for _ in 0..random.length(0..=3) {
            if volume.len() >= layout.geometry().unwrap().sectors * 512 {
                damage(&mut volume, &layout, random.number() % layout.provided);
            }
        }
        reached.add(agrees(&folder, &volume, layout.reserved));
    });
    reached.assert_each(20, 0..=2);
    sizes.assert_all(20);
}

#[test]
fn document_01s_lines() {
    let mut volume = volumes::formatted(&SAMPLE, 0);
    let folder = Folder::with("fresh", &volume);
    let fresh = "tag 32 run 16 sections 1 provided 16\nreplay 0\nbad 0\n";
    assert_eq!(folder.run(&["check", "fresh"]), Ended::good(fresh));
    damage(&mut volume, &SAMPLE, 11);
    damage(&mut volume, &SAMPLE, 2);
    folder.put("bad", &volume);
    let bad =
        "tag 32 run 16 sections 1 provided 16\nreplay 0\nbad-sector 2\nbad-sector 11\nbad 2\n";
    assert_eq!(folder.run(&["check", "bad"]), Ended::with(1, bad, ""));
}

/// Bad sectors at the ends of a volume and of the pieces in which it is checked, alone, in a row, and all.
#[test]
fn bad_sectors_of_a_long_volume() {
    let folder = Folder::new();
    let layout = Layout {
        log2_run: 6,
        provided: 2_500,
        ..SAMPLE
    };
    let whole = volumes::formatted(&layout, 0);
    let edges = [0, 1023, 1024, 1025, 2047, 2048, 2499];
    let row: Vec<u64> = (1000..1100).collect();
    let all: Vec<u64> = (0..layout.provided).collect();
    for bad in [&[], &edges[..], &edges[1..2], &row, &all] {
        let mut volume = whole.clone();
        for sector in bad {
            damage(&mut volume, &layout, *sector);
        }
        assert_eq!(agrees(&folder, &volume, 0), i32::from(!bad.is_empty()));
    }
}

/// Volumes of which open looks at length and superblock alone, the number of the refusal, and what is said of it.
fn without_a_layout() -> [(Vec<u8>, u32, &'static str); 6] {
    let whole = volumes::formatted(&OTHER, 0);
    let mut invalid = whole.clone();
    invalid[2 * 512 + 8] = 5;
    let mut too_large = whole.clone();
    too_large[2 * 512 + 16..][..8].copy_from_slice(&65_536u64.to_le_bytes());
    let needed = OTHER.geometry().unwrap().sectors;
    assert_eq!(needed, 212);
    [
        (whole[1..].to_vec(), 1, "whole sectors of 512 bytes"),
        (whole[..9 * 512].to_vec(), 5, "at least 10 sectors"),
        (vec![0; 100 * 512], 3, "format the volume first"),
        (invalid, 4, "the superblock is not valid"),
        (
            whole[..(needed - 1) * 512].to_vec(),
            5,
            "at least 212 sectors",
        ),
        (too_large, 5, "no volume has more than 65536: "),
    ]
}

/// Volumes that are refused for what stands in the journal.
fn with_a_wrong_journal() -> [(Vec<u8>, u32, &'static str); 4] {
    let (good, beyond) = (Entry::new(3, 1), Entry::new(10, 1));
    let wrong_tag = [good, good, good.with_wrong_tag()];
    let mut used_up = volumes::formatted(&OTHER, 0);
    put_id(&mut used_up, &OTHER.geometry().unwrap(), 1, 87, u64::MAX);
    [
        (used_up, 10, "the commit ids are used up"),
        (
            with_sections(&OTHER, &[(1, 3, &[good])]),
            11,
            "section 1 belongs in another place",
        ),
        (
            with_sections(&OTHER, &[(1, 2, &[good, beyond])]),
            6,
            "entry 1 of the journal's section 1 names",
        ),
        (
            with_sections(&OTHER, &[(0, 1, &wrong_tag)]),
            7,
            "the tag of entry 2 of the journal's section 0 does not fit",
        ),
    ]
}

/// Each kind of refused opening but 2, which is a wrong command line: what is said of it names its place.
#[test]
fn each_refused_opening() {
    let folder = Folder::new();
    let rows = without_a_layout().into_iter().chain(with_a_wrong_journal());
    for (volume, number, said) in rows {
        assert_eq!(agrees(&folder, &volume, 2), 2);
        let ended = folder.run(&["check", "a", "--reserved=2"]);
        assert_eq!(ended.text(), format!("refused {number}\n"));
        assert!(ended.err.contains(said), "{}", ended.err);
    }
}

/// Longer than any volume, a file is refused without being read whole.
#[test]
fn an_image_of_any_length() {
    let folder = Folder::new();
    let file = File::create(folder.path("a")).unwrap();
    for length in [65_536 * 512 + 512, 100 << 30] {
        file.set_len(length).unwrap();
        let ended = folder.run(&["check", "a"]);
        assert_eq!((ended.status, ended.text()), (2, "refused 1\n"));
    }
    file.set_len(65_536 * 512).unwrap();
    assert_eq!(folder.run(&["check", "a"]).text(), "refused 3\n");
}
