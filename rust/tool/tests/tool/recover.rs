//! `gaffreel recover`.

use crate::setting::{with_sections, Ended, Folder, OTHER, SAMPLE};
use random::Reached;
use reference::volume::{open, recover, TagRule};
use std::fs;
use std::os::unix::fs::MetadataExt;
use volumes::any::{small_layout, with_journal};
use volumes::Entry;

#[test]
fn makes_the_stores_once() {
    let entries = [Entry::new(3, 1), Entry::new(9, 2), Entry::new(3, 3)];
    let folder = Folder::with("a", &with_sections(&OTHER, &[(1, 2, &entries)]));
    let words = ["recover", "a", "--reserved", "2"];
    assert_eq!(folder.run(&words), Ended::good("recovered: 6 stores\n"));
    assert_eq!(folder.names(), ["a"]);
    let (recovered, inode) = (
        folder.get("a"),
        fs::metadata(folder.path("a")).unwrap().ino(),
    );
    let home = OTHER.geometry().unwrap().home(3).unwrap();
    assert_eq!(recovered[home.data * 512..][..512], [3; 512]);

    let nothing_new = "recovered: 6 stores, which changed nothing: the image is left as it was\n";
    assert_eq!(folder.run(&words), Ended::good(nothing_new));
    assert!(folder.get("a") == recovered);
    assert_eq!(fs::metadata(folder.path("a")).unwrap().ino(), inode);
}

#[test]
fn nothing_to_replay_leaves_the_file() {
    let folder = Folder::with("a", &volumes::formatted(&SAMPLE, 0));
    let inode = fs::metadata(folder.path("a")).unwrap().ino();
    let said = "nothing to replay: the image is left as it was\n";
    assert_eq!(folder.run(&["recover", "a"]), Ended::good(said));
    assert_eq!(fs::metadata(folder.path("a")).unwrap().ino(), inode);
}

/// On journals of any kind the image is afterwards as the reference leaves it, and after a refusal as it was.
#[test]
fn as_the_reference_recovers() {
    let folder = Folder::new();
    let mut reached = Reached::new();
    random::cases(60, |random| {
        let layout = small_layout(random);
        let mut volume = with_journal(random, &layout);
        folder.put("a", &volume);
        let mut staging = vec![0; layout.geometry().unwrap().staging_length()];
        let expected = open(&volume, layout.reserved, &mut staging, TagRule::Digest)
            .and_then(|mut opened| recover(&mut opened.state, &mut volume, &staging));
        let reserved = layout.reserved.to_string();
        let ended = folder.run(&["recover", "a", "--reserved", &reserved]);
        reached.add(expected.is_err());
        match expected {
            Ok(0) => assert!(ended.text().starts_with("nothing to replay")),
            Ok(stores) => assert!(ended
                .text()
                .starts_with(&format!("recovered: {stores} store"))),
            Err(refusal) => {
                assert_eq!((ended.status, ended.text()), (2, ""));
                let start = format!("gaffreel: a: refused {}: ", refusal.number());
                assert!(ended.err.starts_with(&start), "{}", ended.err);
            }
        }
        assert!(folder.get("a") == volume);
    });
    reached.assert_each(10, [false, true]);
}
