//! A write that is cut after each of its stores, by `--cut-after`, and its recovery.

use crate::setting::{Ended, Folder, ACROSS_SECTORS, SAMPLE, TAG_20};
use reference::volume::{advance, flush, open, write, Layout, TagRule};
use volumes::geometry;

/// A write of whole sectors to a fresh volume.
struct Write {
    layout: Layout,
    /// The first sector, and how many are written.
    first: u64,
    sectors: u64,
    /// The stores that commit the batch, and those that write it back.
    commit: u64,
    written_back: u64,
}

const TO_SAMPLE: Write = Write {
    layout: SAMPLE,
    first: 5,
    sectors: 2,
    commit: 88,
    written_back: 4,
};

const TO_TAG_20: Write = Write {
    layout: TAG_20,
    first: 6,
    sectors: 2,
    commit: 104,
    written_back: 4,
};

/// The tag of the second sector has two stores.
const ACROSS: Write = Write {
    layout: ACROSS_SECTORS,
    first: 16,
    sectors: 3,
    commit: 88,
    written_back: 7,
};

impl Write {
    fn bytes(&self) -> Vec<u8> {
        (0..self.sectors * 512).map(|i| (i % 253) as u8).collect()
    }

    /// What the reference leaves of a volume when the power is cut after so many stores.
    fn left(&self, rule: TagRule, volume: &[u8], stores: u64) -> Vec<u8> {
        let mut volume = volume.to_vec();
        let mut staging = vec![0; geometry(&self.layout).staging_length()];
        let mut state = open(&volume, 0, &mut staging, rule).unwrap().state;
        for (sector, bytes) in (self.first..).zip(self.bytes().chunks(512)) {
            write(&mut state, &mut staging, sector, bytes, rule).unwrap();
        }
        flush(&mut state).unwrap();
        advance(&mut state, &mut volume, &mut staging, stores);
        volume
    }

    /// What a check prints when so many stores are to be replayed.
    fn checked(&self, replay: u64) -> String {
        let Layout {
            log2_run,
            tag_size,
            sections,
            provided,
            ..
        } = self.layout;
        let run = 1 << log2_run;
        format!("tag {tag_size} run {run} sections {sections} provided {provided}\nreplay {replay}\nbad 0\n")
    }

    /// Before the last store of the commit nothing of the batch is kept, from then on all.
    fn cut_after_each_store(&self, rule: TagRule) {
        let fresh = volumes::formatted_by(rule, &self.layout, 0);
        let bytes = self.bytes();
        let folder = Folder::with("in", &bytes);
        let mut options = vec![];
        if let TagRule::Hmac(key) = rule {
            folder.put("key", key);
            options = vec!["--key-file", "key"];
        }
        let run = |words: &[&str]| folder.run(&[words, &options].concat());
        let (first, count) = (self.first.to_string(), self.sectors.to_string());
        let all = self.commit + self.written_back;
        for stores in 0..=all + 1 {
            folder.put("a", &fresh);
            let number = stores.to_string();
            let cut = run(&[
                "write",
                "a",
                &first,
                "--input",
                "in",
                "--cut-after",
                &number,
            ]);
            let (made, kept) = (stores.min(all), stores >= self.commit);
            let what = if made == 1 { "store" } else { "stores" };
            let said = format!(
                "cut after {made} {what}\nacknowledged: {} of 1 batch\n",
                u8::from(kept)
            );
            assert_eq!(cut, Ended::good(&said));
            assert!(folder.get("a") == self.left(rule, &fresh, stores));

            let replay = if kept { self.written_back } else { 0 };
            let checked = self.checked(replay);
            assert_eq!(run(&["check", "a"]), Ended::good(&checked));
            assert_eq!(run(&["recover", "a"]).status, 0);
            let read = run(&["read", "a", &first, "--count", &count]);
            let expected = if kept {
                bytes.clone()
            } else {
                vec![0; bytes.len()]
            };
            assert!(read.out == expected);
            assert_eq!(run(&["check", "a"]), Ended::good(&checked));
        }
    }
}

#[test]
fn after_each_store() {
    TO_SAMPLE.cut_after_each_store(TagRule::Digest);
}

#[test]
fn after_each_store_with_a_key() {
    TO_SAMPLE.cut_after_each_store(TagRule::Hmac(&[7; 100]));
}

#[test]
fn after_each_store_with_tags_of_20_bytes() {
    TO_TAG_20.cut_after_each_store(TagRule::Digest);
}

#[test]
fn after_each_store_with_a_tag_across_two_sectors() {
    ACROSS.cut_after_each_store(TagRule::Digest);
    ACROSS.cut_after_each_store(TagRule::Hmac(&[7; 100]));
}
