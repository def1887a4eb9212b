//! The volume: a journal replayed, and every sector checked.

use crate::measure::{best_of_rounds, compare, milliseconds, pattern, ratio, time};
use gaffreel::Refusal;
use reference::volume::{Geometry, Layout, Phase, TagRule, VOLUME_LIMIT};
use std::hint::black_box;
use volumes::kinds::stores_to_replay;
use volumes::{crosses, formatted, formatted_by, geometry, put_section, section, Entry};

/// The layout of as many sectors as a volume can provide, in two runs.
fn greatest_layout(tag_size: u64, sections: u64) -> Layout {
    let mut layout = Layout {
        reserved: 0,
        log2_run: 15,
        tag_size,
        sections,
        provided: 32_769,
    };
    layout.provided += (VOLUME_LIMIT - geometry(&layout).sectors) as u64;
    layout
}

/// A volume with a full journal, by both sides.
struct Journal {
    geometry: Geometry,
    /// The stores that replay it.
    stores: u64,
    proved: Side<gaffreel::volume::State>,
    rust: Side<reference::volume::State>,
}

/// One side's volume and staging; its state once it is open, and after the recovery; what it reported.
struct Side<State> {
    volume: Vec<u8>,
    staging: Vec<u8>,
    opened: Option<State>,
    recovered: Option<State>,
    stores_to_come: u64,
    stores: u64,
}

impl Journal {
    /// Entries for all sectors of a volume, each in its turn.
    fn new(tag_size: u64, sections: u64) -> Journal {
        let layout = greatest_layout(tag_size, sections);
        Journal::of(&layout, (0..layout.provided).collect())
    }

    /// Entries for the sectors whose tags lie across two sectors.
    fn across_sectors(tag_size: u64, sections: u64) -> Journal {
        let layout = greatest_layout(tag_size, sections);
        let geometry = geometry(&layout);
        let across = (0..layout.provided).filter(|sector| crosses(&geometry, *sector));
        Journal::of(&layout, across.collect())
    }

    /// Every section whole and full, its entries spread over these sectors.
    fn of(layout: &Layout, sectors: Vec<u64>) -> Journal {
        let geometry = geometry(layout);
        let mut volume = formatted(layout, 0);
        for number in 0..geometry.sections {
            let entries: Vec<Entry> = (0..geometry.entries)
                .map(|entry| {
                    let place = number * geometry.entries + entry;
                    // A prime that does not divide the number of sectors.
                    let sector = sectors[place * 7919 % sectors.len()];
                    Entry::new(sector, (place ^ (place >> 8)) as u8)
                })
                .collect();
            let id = number as u64 + 1;
            put_section(
                &mut volume,
                &geometry,
                number,
                &section(&geometry, id, &entries),
            );
        }
        Journal {
            geometry,
            stores: stores_to_replay(&volume, &geometry).len() as u64,
            proved: Side::new(&geometry, volume.clone()),
            rust: Side::new(&geometry, volume),
        }
    }

    /// The length of all sections.
    fn length(&self) -> usize {
        self.geometry.sections * self.geometry.staging_length()
    }

    /// Both made the stores that they reported, are filling, and left the same volume.
    fn assert_same(&self) {
        let stores = self.stores;
        let (proved, rust) = (&self.proved, &self.rust);
        assert_eq!((proved.stores_to_come, proved.stores), (stores, stores));
        assert_eq!((rust.stores_to_come, rust.stores), (stores, stores));
        let phase = proved.recovered.as_ref().map(|state| state.phase);
        assert_eq!(phase, Some(gaffreel::volume::Phase::Filling));
        let phase = rust.recovered.as_ref().map(|state| state.phase);
        assert_eq!(phase, Some(Phase::Filling));
        assert!(proved.volume == rust.volume);
        assert!(proved.staging == rust.staging);
    }
}

impl<State> Side<State> {
    fn new(geometry: &Geometry, volume: Vec<u8>) -> Side<State> {
        Side {
            volume,
            // Not zero, so that the pages are touched.
            staging: vec![1; geometry.staging_length()],
            opened: None,
            recovered: None,
            stores_to_come: 0,
            stores: 0,
        }
    }
}

// The journal stays as it is, so a volume can be recovered again from the state that open gave, and opened again: the same
// work each time.

impl Side<gaffreel::volume::State> {
    fn open(&mut self) {
        let opened = gaffreel::volume::open(black_box(&self.volume), 0, &mut self.staging)
            .expect("the journal is good");
        self.opened = Some(opened.state);
        self.stores_to_come = opened.stores_to_come;
    }

    fn recover(&mut self) {
        let mut state = self.opened.expect("it is open");
        let advanced =
            gaffreel::volume::advance(&mut state, &mut self.volume, &mut self.staging, u64::MAX)
                .expect("the journal is good");
        self.stores = advanced.done;
        self.recovered = Some(state);
    }
}

impl Side<reference::volume::State> {
    fn open(&mut self) {
        let opened = reference::volume::open(
            black_box(&self.volume),
            0,
            &mut self.staging,
            TagRule::Digest,
        )
        .expect("the journal is good");
        self.opened = Some(opened.state);
        self.stores_to_come = opened.stores_to_come;
    }

    fn recover(&mut self) {
        let mut state = self.opened.expect("it is open");
        self.stores = reference::volume::recover(&mut state, &mut self.volume, &self.staging)
            .expect("the journal is good");
        self.recovered = Some(state);
    }
}

/// A full journal of the most sections opened, and replayed to its end.
pub fn journal_recovered() {
    let mut journal = Journal::new(8, 64);
    let length = journal.length();
    let (proved, rust) = (&mut journal.proved, &mut journal.rust);
    compare(
        "journal of 64 full sections opened and recovered",
        length,
        || {
            proved.open();
            proved.recover();
        },
        || {
            rust.open();
            rust.recover();
        },
    );
    journal.assert_same();
}

/// How many sectors a verify is asked for at once: what the tool's check asks for.
const CHUNK: u64 = 1024;

/// Every sector of a volume of 32 MiB read, and its tag computed; a few don't fit.
pub fn sectors_checked() {
    checked_by("61344 sectors checked", TagRule::Digest, bad_by_reads);
}

/// The same by verifies, of 1,024 sectors each.
pub fn sectors_verified() {
    checked_by("61344 sectors verified", TagRule::Digest, bad_by_verifies);
}

/// The same with a key. Rust keeps the states behind the key's pads for the whole check, a verify for its 1,024 sectors: the proved
/// side has two blocks more to compress at each call.
pub fn sectors_checked_with_a_key() {
    let key = pattern(32);
    let name = "61344 sectors checked with a key, by verify";
    checked_by(name, TagRule::Hmac(&key), bad_by_verifies);
}

/// The sectors of an open volume whose tags don't fit.
type Bad = fn(&gaffreel::volume::State, &[u8], &[u8], TagRule) -> Vec<u64>;

fn checked_by(name: &str, rule: TagRule, bad: Bad) {
    let layout = greatest_layout(32, 1);
    assert_eq!(layout.provided, 61_344);
    let geometry = geometry(&layout);
    let volume = with_bad_sectors(&layout, &geometry, rule);
    let mut staging = vec![1; geometry.staging_length()];
    let mut proved = vec![];
    let mut rust = vec![];
    compare(
        name,
        geometry.provided * 512,
        || {
            let volume = black_box(&volume);
            let state = opened(volume, &mut staging, rule);
            proved = bad(&state, volume, &staging, rule);
        },
        || {
            rust = reference::volume::check(black_box(&volume), 0, rule)
                .expect("the volume is good")
                .bad;
        },
    );
    assert_eq!(proved.len(), 6);
    assert_eq!(proved, rust);
}

/// A volume whose sectors are not all alike; every 10,000th has a wrong tag.
fn with_bad_sectors(layout: &Layout, geometry: &Geometry, rule: TagRule) -> Vec<u8> {
    let mut volume = formatted_by(rule, layout, 0);
    let data = pattern(geometry.provided * 512);
    let (sectors, _) = data.as_chunks();
    for (number, bytes) in (0..).zip(sectors) {
        let home = geometry.home(number).expect("it is provided");
        let mut tag = rule.of_sector(number, bytes).expect("the key is in range");
        tag[31] ^= u8::from(number % 10_000 == 9_999);
        volume[home.data * 512..][..512].copy_from_slice(bytes);
        volume[home.tag..][..32].copy_from_slice(&tag);
    }
    volume
}

fn opened(volume: &[u8], staging: &mut [u8], rule: TagRule) -> gaffreel::volume::State {
    use gaffreel::volume::{open, open_keyed};
    let opened = match rule {
        TagRule::Digest => open(volume, 0, staging),
        TagRule::Hmac(key) => open_keyed(volume, 0, staging, key),
    };
    opened.expect("the volume is good").state
}

/// Reads every sector.
fn bad_by_reads(
    state: &gaffreel::volume::State,
    volume: &[u8],
    staging: &[u8],
    rule: TagRule,
) -> Vec<u64> {
    use gaffreel::volume::{read, read_keyed};
    let mut out = [0; 512];
    (0..state.layout.provided)
        .filter(|&sector| {
            let answer = match rule {
                TagRule::Digest => read(state, volume, staging, sector, &mut out),
                TagRule::Hmac(key) => read_keyed(state, volume, staging, sector, &mut out, key),
            };
            assert!(answer.is_ok() || answer == Err(Refusal::Tag { sector }));
            answer.is_err()
        })
        .collect()
}

/// Verifies chunk by chunk, and goes on behind each sector that is named.
fn bad_by_verifies(
    state: &gaffreel::volume::State,
    volume: &[u8],
    _staging: &[u8],
    rule: TagRule,
) -> Vec<u64> {
    use gaffreel::volume::{verify, verify_keyed};
    let provided = state.layout.provided;
    let mut bad = vec![];
    let mut next = 0;
    while next < provided {
        let count = CHUNK.min(provided - next);
        let answer = match rule {
            TagRule::Digest => verify(state, volume, next, count),
            TagRule::Hmac(key) => verify_keyed(state, volume, next, count, key),
        };
        next = match answer {
            Ok(()) => next + count,
            Err(Refusal::Tag { sector }) => {
                bad.push(sector);
                sector + 1
            }
            Err(other) => unreachable!("{other}"),
        };
    }
    bad
}

/// The most sections of a journal.
const MOST_SECTIONS: u64 = 64;

/// A table: how the times of open and of the recovery grow with the number of sections, all full. The recovery is timed once
/// behind an open, as a card makes it, with the volume out of the nearer caches; and so often in a row that every line times
/// as many stores as the last, since one of few sections takes microseconds.
pub fn recovery_by_sections() {
    recovery_heading("full sections");
    for sections in [1, 4, 16, MOST_SECTIONS] {
        let journal = Journal::new(8, sections);
        recovery_row(&sections.to_string(), journal, MOST_SECTIONS / sections);
    }
}

/// The same of the most sections with tags of other sizes, of which some lie across two sectors; and of entries whose tags all do, with
/// three stores each.
pub fn recovery_by_tag_size() {
    recovery_heading("64 full sections");
    recovery_row("T 20", Journal::new(20, MOST_SECTIONS), 1);
    recovery_row("T 30", Journal::new(30, MOST_SECTIONS), 1);
    let across = Journal::across_sectors(30, MOST_SECTIONS);
    recovery_row("T 30 across", across, 1);
}

/// Prints what the columns of [`recovery_row`] hold.
fn recovery_heading(rows: &str) {
    println!();
    println!(
        "{rows:<26} {:>27}   {:>27}   {:>27}",
        "open", "recovery behind it", "recoveries in a row"
    );
    let columns = format!("{:>10} {:>9} {:>6}", "proved ms", "Rust ms", "ratio");
    println!("{:<26} {columns}   {columns}   {columns}", "");
}

/// Times a journal's open and its recovery, once and so many times in a row.
fn recovery_row(name: &str, mut journal: Journal, times: u64) {
    let (proved, rust) = (&mut journal.proved, &mut journal.rust);
    let [proved_open, rust_open, proved_recovery, rust_recovery] = best_of_rounds(|| {
        [
            time(|| proved.open()),
            time(|| rust.open()),
            time(|| proved.recover()),
            time(|| rust.recover()),
        ]
    });
    let [proved_row, rust_row] = best_of_rounds(|| {
        [
            time(|| (0..times).for_each(|_| proved.recover())),
            time(|| (0..times).for_each(|_| rust.recover())),
        ]
    });
    journal.assert_same();
    let pair = |proved, rust| {
        format!(
            "{:>10.2} {:>9.2} {:>6.2}",
            milliseconds(proved),
            milliseconds(rust),
            ratio(proved, rust)
        )
    };
    println!(
        "{:<26} {}   {}   {}",
        format!("{name}, {} stores", journal.stores),
        pair(proved_open, rust_open),
        pair(proved_recovery, rust_recovery),
        pair(proved_row, rust_row)
    );
}
