//! Images are replaced whole or not at all.

use crate::setting::{ended, Ended, Folder, SAMPLE, TOOL};
use std::fs::{self, Permissions};
use std::io::ErrorKind;
use std::os::unix::fs::{symlink, MetadataExt, PermissionsExt};
use std::os::unix::process::CommandExt;
use std::thread;

/// A user without rights to anything, by the number that Linux systems have for it.
const NOBODY: u32 = 65_534;

fn with_image() -> Folder {
    let folder = Folder::with("a", &volumes::formatted(&SAMPLE, 0));
    folder.put("in", &[1; 512]);
    folder
}

fn mode(folder: &Folder, name: &str) -> u32 {
    fs::metadata(folder.path(name))
        .unwrap()
        .permissions()
        .mode()
        & 0o7777
}

fn set_mode(folder: &Folder, name: &str, mode: u32) {
    fs::set_permissions(folder.path(name), Permissions::from_mode(mode)).unwrap();
}

/// Runs the tool as a user that file permissions bind: as nobody where the tests are run by root.
fn run_bound(folder: &Folder, words: &[&str]) -> Ended {
    if fs::metadata(folder.path("a")).unwrap().uid() != 0 {
        return folder.run(words);
    }
    // A copy, since the build folder may be closed to others.
    let copy = Folder::new();
    fs::copy(TOOL, copy.path("gaffreel")).unwrap();
    let mut command = folder.program(copy.path("gaffreel").to_str().unwrap(), words);
    command.uid(NOBODY).gid(NOBODY);
    loop {
        match command.output() {
            // A process that another test just started still has the copy open.
            Err(error) if error.kind() == ErrorKind::ExecutableFileBusy => thread::yield_now(),
            output => return Ended::from(output.unwrap()),
        }
    }
}

#[test]
fn permissions_are_kept() {
    let folder = with_image();
    for bits in [0o600, 0o644, 0o4751] {
        set_mode(&folder, "a", bits);
        let inode = fs::metadata(folder.path("a")).unwrap().ino();
        assert_eq!(folder.run(&["write", "a", "3", "--input=in"]).status, 0);
        assert_eq!(mode(&folder, "a"), bits);
        assert_ne!(fs::metadata(folder.path("a")).unwrap().ino(), inode);
    }
    assert_eq!(folder.names(), ["a", "in"]);
}

/// The link stays, and the file that it leads to is replaced in its own folder.
#[test]
fn a_symbolic_link_is_followed() {
    let folder = with_image();
    fs::create_dir(folder.path("folder")).unwrap();
    fs::rename(folder.path("a"), folder.path("folder/a")).unwrap();
    symlink("folder/a", folder.path("link")).unwrap();
    assert_eq!(folder.run(&["write", "link", "3", "--input=in"]).status, 0);
    assert!(folder.path("link").is_symlink());
    assert_eq!(folder.run(&["read", "folder/a", "3"]).out, [1; 512]);
    assert_eq!(folder.names(), ["folder", "in", "link"]);

    symlink("none", folder.path("dangling")).unwrap();
    let dangling = folder.run(&["format", "dangling"]);
    assert_eq!(dangling.status, 3);
    assert!(dangling
        .err
        .starts_with("gaffreel: dangling: is a symbolic link to a file that is not there"));
    assert!(folder.path("dangling").is_symlink());
}

/// Files may be no longer than 50 blocks of 512 bytes: the new image does not fit.
#[test]
fn a_failure_leaves_the_old_file() {
    let folder = with_image();
    let before = folder.get("a");
    let limited = "trap '' XFSZ; ulimit -f 50; exec \"$@\"";
    for words in [&["write", "a", "3", "--input=in"][..], &["format", "b"]] {
        let words = [&["-c", limited, "sh", TOOL], words].concat();
        let ended = ended(&mut folder.program("sh", &words));
        assert_eq!((ended.status, ended.text()), (3, ""));
        assert!(
            ended.err.contains(": cannot be written: File too large"),
            "{}",
            ended.err
        );
        assert!(folder.get("a") == before);
        assert_eq!(folder.names(), ["a", "in"]);
    }
}

#[test]
fn a_folder_that_may_not_be_written() {
    let folder = with_image();
    let before = folder.get("a");
    set_mode(&folder, "a", 0o666);
    set_mode(&folder, "", 0o555);
    let write = run_bound(&folder, &["write", "a", "3", "--input=in"]);
    let format = run_bound(&folder, &["format", "b"]);
    let check = run_bound(&folder, &["check", "a"]);
    set_mode(&folder, "", 0o755);
    for (ended, name) in [(write, "a"), (format, "b")] {
        assert_eq!((ended.status, ended.text()), (3, ""));
        let start = format!("gaffreel: {name}: cannot be written: Permission denied");
        assert!(ended.err.starts_with(&start), "{}", ended.err);
    }
    assert_eq!(check.status, 0);
    assert!(folder.get("a") == before);
    assert_eq!(folder.names(), ["a", "in"]);
}

#[test]
fn a_file_that_may_not_be_written() {
    let folder = with_image();
    let before = folder.get("a");
    set_mode(&folder, "a", 0o444);
    set_mode(&folder, "", 0o777);
    let ended = run_bound(&folder, &["write", "a", "3", "--input=in"]);
    assert_eq!((ended.status, ended.text()), (3, ""));
    assert!(ended
        .err
        .starts_with("gaffreel: a: cannot be written: Permission denied"));
    assert!(folder.get("a") == before);
    assert_eq!(folder.names(), ["a", "in"]);
}

#[test]
fn what_is_not_a_regular_file_is_not_replaced() {
    let folder = with_image();
    fs::create_dir(folder.path("folder")).unwrap();
    folder.put("block", &[0; 4096]);
    let ended = folder.run(&["tree", "build", "block", "folder"]);
    assert_eq!((ended.status, ended.text()), (3, ""));
    assert_eq!(
        ended.err,
        "gaffreel: folder: is not a regular file: name a file\n"
    );
    assert!(folder.path("folder").is_dir());
}
