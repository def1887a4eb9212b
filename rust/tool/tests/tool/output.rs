//! Standard output that nobody reads, or that takes nothing.

use crate::setting::{ended, Folder, SAMPLE, TOOL};
use reference::volume::Layout;
use std::fs::OpenOptions;
use std::process::Stdio;

/// 200 KiB, more than a pipe holds.
fn large() -> Folder {
    let layout = Layout {
        provided: 400,
        ..SAMPLE
    };
    Folder::with("a", &volumes::formatted(&layout, 0))
}

#[test]
fn a_broken_pipe_is_no_panic() {
    let folder = large();
    let mut command = folder.program(TOOL, &["read", "a", "0", "--count", "400"]);
    command.stdout(Stdio::piped()).stderr(Stdio::piped());
    let mut child = command.spawn().unwrap();
    drop(child.stdout.take());
    let output = child.wait_with_output().unwrap();
    assert_eq!(
        (output.status.code(), &output.stderr[..]),
        (Some(3), &b""[..])
    );
}

#[test]
fn a_full_device_is_told() {
    let folder = large();
    for words in [
        &["check", "a"][..],
        &["--help"],
        &["read", "a", "0", "--count=400"],
    ] {
        let full = OpenOptions::new().write(true).open("/dev/full").unwrap();
        let ended = ended(folder.program(TOOL, words).stdout(full));
        assert_eq!(ended.status, 3);
        let start = "gaffreel: standard output cannot be written: ";
        assert!(ended.err.starts_with(start), "{}", ended.err);
    }
}
