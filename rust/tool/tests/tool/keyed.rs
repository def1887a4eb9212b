//! `--key-file`: the file, right, wrong and missing keys, and each command with one.

use crate::check::expected;
use crate::setting::{damage, with_sections, Ended, Folder, OTHER, SAMPLE};
use random::Reached;
use reference::volume::{check, Layout, TagRule};
use volumes::any::{small_layout, with_journal};
use volumes::keyed::{any_key, retag};
use volumes::Entry;

const KEY: &[u8] = b"of the cabinet";

const BY_KEY: TagRule = TagRule::Hmac(KEY);

/// A folder with an image `a`, its key in `key`, another in `other`, and a sector to be written in `in`.
fn folder(image: &[u8]) -> Folder {
    let folder = Folder::with("a", image);
    folder.put("key", KEY);
    folder.put("other", b"of another cabinet");
    folder.put("in", &[9; 512]);
    folder
}

/// A volume with a key whose journal has sections of these numbers, ids and entries.
fn keyed_sections(layout: &Layout, sections: &[(usize, u64, &[Entry])]) -> Vec<u8> {
    let mut volume = with_sections(layout, sections);
    retag(&mut volume, layout, BY_KEY);
    volume
}

/// The command lines that take a key, on the image `a`.
const COMMANDS: [&[&str]; 7] = [
    &["format", "a"],
    &["dump", "a"],
    &["check", "a"],
    &["recover", "a"],
    &["read", "a", "5"],
    &["write", "a", "5", "--input", "in"],
    &["drill", "a", "--batches=1", "--writes=1"],
];

/// All bytes of the file are the key. An empty file, a longer one, a folder and none at all: 3, with the file's name.
#[test]
fn files_that_have_no_key() {
    let image = volumes::formatted_by(BY_KEY, &SAMPLE, 0);
    let folder = folder(&image);
    folder.put("empty", b"");
    folder.put("long", &[7; 257]);
    std::fs::create_dir(folder.path("folder")).unwrap();
    let counted =
        "all bytes of the file are the key, a newline at its end too, and a key has 1 to 256";
    for (name, reason) in [
        ("empty", format!("is empty: {counted}\n")),
        ("long", format!("is too long for a key: {counted}\n")),
        ("folder", "cannot be read: ".into()),
        ("none", "cannot be read: ".into()),
    ] {
        for command in COMMANDS {
            let ended = folder.run(&[command, &["--key-file", name]].concat());
            assert_eq!((ended.status, ended.text()), (3, ""), "{command:?}");
            let start = format!("gaffreel: {name}: {reason}");
            assert!(ended.err.starts_with(&start), "{}", ended.err);
            assert!(folder.get("a") == image);
        }
    }
    let twice = folder.run(&["check", "a", "--key-file=key", "--key-file=key"]);
    assert!(twice.err.starts_with("gaffreel: --key-file is given twice"));
    for words in [["tree", "build", "a", "t"], ["tree", "verify", "a", "t"]] {
        let ended = folder.run(&[&words[..], &["--key-file", "key"]].concat());
        assert!(ended.err.contains("unknown option --key-file"));
    }
}

/// What format makes is the reference's, for keys around a block's length and at the ends.
#[test]
fn format_with_a_key() {
    for length in [1, 63, 64, 65, 255, 256] {
        let key: Vec<u8> = (0..length).map(|i| (i * 5 + length) as u8).collect();
        let folder = Folder::with("key", &key);
        let ended = folder.run(&["format", "a", "--key-file", "key"]);
        let said = "formatted 120 sectors: tag 32 run 16 sections 1 provided 16\n";
        assert_eq!(ended, Ended::good(said));
        let mut expected = vec![0; 120 * 512];
        reference::volume::format(&mut expected, &SAMPLE, TagRule::Hmac(&key)).unwrap();
        assert!(folder.get("a") == expected);
    }
}

/// A newline behind the key makes it another.
#[test]
fn a_newline_counts() {
    let folder = folder(&volumes::formatted_by(BY_KEY, &SAMPLE, 0));
    folder.put("line", &[KEY, b"\n"].concat());
    assert_eq!(folder.run(&["check", "a", "--key-file", "key"]).status, 0);
    assert_eq!(folder.run(&["check", "a", "--key-file", "line"]).status, 1);
}

/// What is written with the key is read with it; the image is that of the same calls without a key but for its tags.
#[test]
fn written_and_read() {
    let folder = folder(&volumes::formatted_by(BY_KEY, &SAMPLE, 0));
    let with_key = |words: &[&str]| folder.run(&[words, &["--key-file=key"]].concat());
    let said = "written: 90 stores\nacknowledged: 1 of 1 batch\n";
    let written = with_key(&["write", "a", "5", "--input", "in"]);
    assert_eq!(written, Ended::good(said));
    assert_eq!(with_key(&["read", "a", "5"]).out, [9; 512]);
    assert_eq!(with_key(&["read", "a", "4"]).out, [0; 512]);
    let clean = "tag 32 run 16 sections 1 provided 16\nreplay 2\nbad 0\n";
    assert_eq!(with_key(&["check", "a"]), Ended::good(clean));

    folder.put("plain", &volumes::formatted(&SAMPLE, 0));
    folder.run(&["write", "plain", "5", "--input", "in"]);
    let mut plain = folder.get("plain");
    retag(&mut plain, &SAMPLE, BY_KEY);
    assert!(folder.get("a") == plain);
}

/// The output is not written over the key.
#[test]
fn an_output_that_has_the_key() {
    let folder = folder(&volumes::formatted_by(BY_KEY, &SAMPLE, 0));
    let ended = folder.run(&["read", "a", "5", "--key-file=key", "--output", "./key"]);
    let err = "gaffreel: ./key: has the key: name another file for the output\n";
    assert_eq!(ended, Ended::with(3, "", err));
    assert_eq!(folder.get("key"), KEY);
}

/// With something to replay every command but format is refused 7 under a wrong key and without one, says of which the
/// key may be the reason, and leaves the image.
#[test]
fn wrong_and_missing_keys_with_something_to_replay() {
    let image = keyed_sections(&SAMPLE, &[(0, 1, &[Entry::new(5, 1)])]);
    let folder = folder(&image);
    let met = "gaffreel: a: refused 7: the tag of entry 0 of the journal's section 0 does not fit its data: ";
    let wrong = "the key may be wrong; if it is the volume's, restore ";
    let missing = "if the volume has a key, name its file by --key-file; else restore ";
    for command in &COMMANDS[1..] {
        for (option, advice) in [(&["--key-file=other"][..], wrong), (&[], missing)] {
            let ended = folder.run(&[command, option].concat());
            assert_eq!(ended.status, 2, "{command:?}");
            let start = format!("{met}{advice}");
            assert!(ended.err.starts_with(&start), "{}", ended.err);
            assert!(folder.get("a") == image);
        }
    }
    let recovered = folder.run(&["recover", "a", "--key-file=key"]);
    assert_eq!(recovered, Ended::good("recovered: 2 stores\n"));
    assert_eq!(
        folder.run(&["read", "a", "5", "--key-file=key"]).out,
        [1; 512]
    );
}

/// With nothing to replay the tags of the sectors show it.
#[test]
fn wrong_and_missing_keys_of_a_fresh_volume() {
    let folder = folder(&volumes::formatted_by(BY_KEY, &SAMPLE, 0));
    let mut lines = String::from("tag 32 run 16 sections 1 provided 16\nreplay 0\n");
    (0..16).for_each(|sector| lines += &format!("bad-sector {sector}\n"));
    lines += "bad 16\n";
    let warned =
        "gaffreel: a: bad sectors under this key: where none is good, the key may be wrong\n";
    let ended = folder.run(&["check", "a", "--key-file=other"]);
    assert_eq!(ended, Ended::with(1, &lines, warned));
    assert_eq!(folder.run(&["check", "a"]), Ended::with(1, &lines, ""));
    let read = folder.run(&["read", "a", "3", "--key-file=other"]);
    let err = "gaffreel: a: refused 7: the tag of sector 3 does not fit its data: \
               the key may be wrong; if it is the volume's, write the sector again from a good copy\n";
    assert_eq!(read, Ended::with(2, "", err));
}

/// A damaged sector under the right key.
#[test]
fn check_under_the_right_key() {
    let mut image = volumes::formatted_by(BY_KEY, &SAMPLE, 0);
    damage(&mut image, &SAMPLE, 11);
    let ended = folder(&image).run(&["check", "a", "--key-file=key"]);
    assert_eq!(ended.status, 1);
    assert!(ended.text().ends_with("bad-sector 11\nbad 1\n"));
}

#[test]
fn entries_shown_under_a_key() {
    let entries = [Entry::new(4, 1), Entry::new(5, 2).with_wrong_tag()];
    let image = keyed_sections(&OTHER, &[(0, 1, &entries)]);
    let folder = folder(&image);
    let dump = |option| {
        let words = ["dump", "a", "--entries", "--reserved=2", option];
        folder.run(&words).text().to_string()
    };
    let right = "entry 0: sector 4, the tag fits\n  entry 1: sector 5, the tag does not fit\n";
    assert!(dump("--key-file=key").contains(right));
    let wrong =
        "entry 0: sector 4, the tag does not fit\n  entry 1: sector 5, the tag does not fit\n";
    assert!(dump("--key-file=other").contains(wrong));
}

#[test]
fn a_drill_with_a_key() {
    let image = keyed_sections(&OTHER, &[(0, 1, &[Entry::new(3, 1), Entry::new(4, 1)])]);
    let folder = folder(&image);
    let words = ["drill", "a", "--reserved=2", "--batches=3", "--writes=4"];
    let ended = folder.run(&[&words[..], &["--key-file=key"]].concat());
    assert_eq!((ended.status, ended.err.as_str()), (0, ""));
    assert!(ended.text().ends_with("every cut survived\n"));
    assert!(folder.get("a") == image);
}

/// Checks of volumes of any kind are the reference's.
#[test]
fn as_the_reference_says_under_a_key() {
    let folder = Folder::new();
    let mut reached = Reached::new();
    random::cases(150, |random| {
        let layout = small_layout(random);
        let mut volume = with_journal(random, &layout);
        let key = any_key(random);
        let rule = TagRule::Hmac(&key);
        retag(&mut volume, &layout, rule);
        for _ in 0..random.length(0..=2) {
            damage(&mut volume, &layout, random.number() % layout.provided);
        }
        folder.put("a", &volume);
        folder.put("key", &key);
        let reserved = layout.reserved.to_string();
        let ended = folder.run(&["check", "a", "--reserved", &reserved, "--key-file=key"]);
        let (status, lines) = expected(&check(&volume, layout.reserved, rule));
        assert_eq!((ended.status, ended.text()), (status, lines.as_str()));
        reached.add(status);
    });
    reached.assert_each(10, 0..=2);
}
