//! `gaffreel format`.

use crate::setting::{Ended, Folder, OTHER, SAMPLE};

#[test]
fn a_new_image_by_the_defaults() {
    let folder = Folder::new();
    let said = "formatted 120 sectors: tag 32 run 16 sections 1 provided 16\n";
    assert_eq!(folder.run(&["format", "a"]), Ended::good(said));
    assert!(folder.get("a") == volumes::formatted(&SAMPLE, 0));
    assert_eq!(folder.names(), ["a"]);
}

#[test]
fn each_parameter() {
    let folder = Folder::new();
    let ended = folder.run(&[
        "format",
        "a",
        "--tag-size",
        "8",
        "--run=1024",
        "--sections",
        "7",
        "--sectors",
        "3000",
        "--reserved",
        "5",
    ]);
    let layout = reference::volume::Layout {
        reserved: 5,
        log2_run: 10,
        tag_size: 8,
        sections: 7,
        provided: 3000,
    };
    let sectors = layout.geometry().unwrap().sectors;
    let said = format!("formatted {sectors} sectors: tag 8 run 1024 sections 7 provided 3000\n");
    assert_eq!(ended, Ended::good(&said));
    let mut expected = vec![0; sectors * 512];
    reference::volume::format(&mut expected, &layout, reference::volume::TagRule::Digest).unwrap();
    assert!(folder.get("a") == expected);
}

/// Each tag size that there is.
#[test]
fn each_tag_size() {
    let folder = Folder::new();
    for tag_size in 1..=32 {
        let name = format!("{tag_size}");
        let ended = folder.run(&[
            "format",
            &name,
            "--tag-size",
            &name,
            "--run=64",
            "--sectors=70",
        ]);
        let layout = reference::volume::Layout {
            log2_run: 6,
            tag_size,
            provided: 70,
            ..SAMPLE
        };
        let sectors = layout.geometry().unwrap().sectors;
        let said =
            format!("formatted {sectors} sectors: tag {tag_size} run 64 sections 1 provided 70\n");
        assert_eq!(ended, Ended::good(&said));
        assert!(folder.get(&name) == volumes::formatted(&layout, 0));
    }
}

#[test]
fn a_length_of_its_own() {
    let folder = Folder::new();
    assert_eq!(folder.run(&["format", "a", "--length", "130"]).status, 0);
    assert_eq!(folder.get("a").len(), 130 * 512);
    let short = folder.run(&["format", "b", "--length", "119"]);
    let err = "gaffreel: b: refused 5: the volume is shorter than its layout: it must have at least 120 sectors\n";
    assert_eq!(short, Ended::with(2, "", err));
    assert_eq!(folder.names(), ["a"]);
}

/// It keeps its length, its reserved sectors and those behind the last run.
#[test]
fn an_image_that_is_there() {
    let mut expected = volumes::formatted(&OTHER, 3);
    let mut bytes = expected.clone();
    bytes[2 * 512..10 * 512].fill(0);
    let folder = Folder::with("a", &bytes);
    let other = [
        "format",
        "a",
        "--run=8",
        "--sections=2",
        "--sectors=10",
        "--reserved=2",
    ];
    let wrong = folder.run(&[&other[..], &["--length", "9"]].concat());
    assert_eq!(wrong.status, 3);
    assert!(wrong
        .err
        .starts_with("gaffreel: a: is there, and keeps its length: "));
    assert!(folder.get("a") == bytes);

    assert_eq!(folder.run(&other).status, 0);
    assert!(folder.get("a") == expected);
    let again = folder.run(&other);
    assert_eq!((again.status, again.text()), (2, ""));
    assert!(again
        .err
        .starts_with("gaffreel: a: refused 3: there is something in the superblock's place: "));
    // An odd length is refused before the superblock is looked at.
    expected.push(0);
    folder.put("a", &expected);
    let odd = folder.run(&other);
    assert_eq!(odd.status, 2);
    assert!(odd
        .err
        .starts_with("gaffreel: a: refused 1: the image is not whole sectors"));
    assert!(folder.get("a") == expected);
}

#[test]
fn a_layout_that_no_volume_has_room_for() {
    let folder = Folder::new();
    let ended = folder.run(&["format", "a", "--sectors", "65536"]);
    assert_eq!((ended.status, ended.text()), (2, ""));
    let start = "gaffreel: a: refused 5: the layout needs 98400 sectors, and no volume has more than 65536: ";
    assert!(ended.err.starts_with(start), "{}", ended.err);
    assert_eq!(folder.names(), [""; 0]);
}
