//! Command lines: help, version, and all that is wrong with them.

use crate::setting::{Ended, Folder, SAMPLE};

#[test]
fn help_and_version() {
    let folder = Folder::new();
    let overview = folder.run(&["--help"]);
    assert_eq!((overview.status, overview.err.as_str()), (0, ""));
    for command in [
        "format",
        "dump",
        "check",
        "recover",
        "read",
        "write",
        "tree build",
        "tree verify",
        "drill",
    ] {
        assert!(overview.text().contains(&format!("\n  {command} ")));
        let mut words: Vec<&str> = command.split(' ').collect();
        words.push("--help");
        let help = folder.run(&words);
        assert_eq!((help.status, help.err.as_str()), (0, ""));
        let usage = format!("Usage: gaffreel {command} IMAGE");
        assert!(help.text().starts_with(&usage), "{}", help.text());
        let widest = help.text().lines().map(str::len).max().unwrap();
        assert!(widest <= 100, "{}", help.text());
    }
    let both = folder.run(&["tree", "--help"]);
    assert_eq!(both.status, 0);
    assert!(both.text().contains("tree build IMAGE") && both.text().contains("tree verify IMAGE"));
    let version = format!("gaffreel {}\n", env!("CARGO_PKG_VERSION"));
    assert_eq!(folder.run(&["--version"]), Ended::good(&version));
}

/// Wrong command lines, and what is said of each.
const WRONG: [(&str, &str); 38] = [
    ("", "a command is missing"),
    ("chekc", "unknown command chekc"),
    ("--hel", "unknown command --hel"),
    ("--version x", "unexpected argument x"),
    ("--help x", "unexpected argument x"),
    ("tree", "the command is tree build or tree verify"),
    ("tree x", "the command is tree build or tree verify"),
    ("check", "IMAGE is missing"),
    ("check a b", "unexpected argument b"),
    ("check a -- --help", "unexpected argument --help"),
    ("check a -r", "unknown option -r"),
    ("check a --reserve 1", "unknown option --reserve"),
    ("check a --entries", "unknown option --entries"),
    ("check a --reserved", "--reserved needs a value"),
    ("check a --key-file", "--key-file needs a value"),
    (
        "check a --reserved 65",
        "--reserved is a number from 0 to 64, not \"65\"",
    ),
    (
        "check a --reserved=",
        "--reserved is a number from 0 to 64, not \"\"",
    ),
    (
        "check a --reserved +1",
        "--reserved is a number from 0 to 64, not \"+1\"",
    ),
    (
        "check a --reserved -1",
        "--reserved is a number from 0 to 64, not \"-1\"",
    ),
    (
        "check a --reserved=1 --reserved=1",
        "--reserved is given twice",
    ),
    ("dump a --entries --entries", "--entries is given twice"),
    ("dump a --entries=1", "--entries takes no value"),
    (
        "format a --tag-size 0",
        "--tag-size is a number from 1 to 32, not \"0\"",
    ),
    (
        "format a --tag-size 33",
        "--tag-size is a number from 1 to 32, not \"33\"",
    ),
    ("format a --run 12", "--run is a power of two, not 12"),
    (
        "format a --run 65536",
        "--run is a number from 8 to 32768, not \"65536\"",
    ),
    (
        "format a --sections 0",
        "--sections is a number from 1 to 64, not \"0\"",
    ),
    (
        "format a --sectors 65537",
        "--sectors is a number from 1 to 65536, not \"65537\"",
    ),
    (
        "format a --length 65537",
        "--length is a number from 1 to 65536, not \"65537\"",
    ),
    ("read a", "SECTOR is missing"),
    (
        "read a x",
        "SECTOR is a number from 0 to 18446744073709551615, not \"x\"",
    ),
    (
        "read a 1 --count 0",
        "--count is a number from 1 to 65536, not \"0\"",
    ),
    (
        "write a 1 --cut-after 18446744073709551616",
        "--cut-after is a number from 0 to 18446744073709551615, not \"18446744073709551616\"",
    ),
    ("tree build a", "TREE is missing"),
    (
        "tree build a b --salt abc",
        "--salt is up to 32 bytes, each two hexadecimal digits",
    ),
    ("tree verify a b", "ROOT is missing"),
    ("tree verify a b 00", "ROOT is 64 hexadecimal digits"),
    (
        "drill a --batches 0",
        "--batches is a number from 1 to 1000, not \"0\"",
    ),
];

/// Each ends with 3, one line on standard error that says what is wrong and where to read on, and leaves no file.
#[test]
fn wrong_command_lines() {
    let folder = Folder::new();
    for (line, message) in WRONG {
        let words: Vec<&str> = line.split_whitespace().collect();
        let ended = folder.run(&words);
        assert_eq!((ended.status, ended.text()), (3, ""), "{line}");
        let start = format!("gaffreel: {message} (see gaffreel ");
        assert!(ended.err.starts_with(&start), "{line}: {}", ended.err);
        assert!(ended.err.ends_with(" --help)\n"), "{}", ended.err);
        assert_eq!(ended.err.lines().count(), 1);
        assert_eq!(folder.names(), [""; 0]);
    }
    let empty = folder.run(&["check", ""]).err;
    assert_eq!(
        empty,
        "gaffreel: IMAGE is empty (see gaffreel check --help)\n"
    );
    let hinted = folder.run(&["tree", "build"]).err;
    assert!(hinted.ends_with("(see gaffreel tree build --help)\n"));
    let salt = "00".repeat(33);
    let long = folder.run(&["tree", "build", "a", "b", "--salt", &salt]);
    assert_eq!((long.status, folder.names()), (3, vec![]));
}

/// Options stand anywhere, with their value attached or not; behind `--` there are none.
#[test]
fn where_options_stand() {
    let folder = Folder::with("a", &volumes::formatted(&SAMPLE, 0));
    folder.put("--entries", &volumes::formatted(&SAMPLE, 0));
    let good = Ended::good("tag 32 run 16 sections 1 provided 16\nreplay 0\nbad 0\n");
    for words in [
        &["check", "--reserved", "0", "a"][..],
        &["check", "a", "--reserved=0"],
        &["check", "--", "a"],
        &["check", "--reserved=0", "--", "--entries"],
    ] {
        assert_eq!(folder.run(words), good);
    }
}

/// A file that is not there, a folder, and a folder that is not there: 3, with the file's name.
#[test]
fn files_that_cannot_be_read() {
    let folder = Folder::new();
    std::fs::create_dir(folder.path("folder")).unwrap();
    for name in ["none", "folder", "none/a"] {
        for words in [
            &["check", name][..],
            &["dump", name],
            &["recover", name],
            &["read", name, "0"],
            &["write", name, "0"],
            &["drill", name],
            &["tree", "build", name, "t"],
            &["tree", "verify", name, "t", &"00".repeat(32)],
        ] {
            let ended = folder.run(words);
            assert_eq!((ended.status, ended.text()), (3, ""), "{words:?}");
            let start = format!("gaffreel: {name}: cannot be read: ");
            assert!(ended.err.starts_with(&start), "{}", ended.err);
        }
    }
    assert_eq!(folder.names(), ["folder"]);
}
