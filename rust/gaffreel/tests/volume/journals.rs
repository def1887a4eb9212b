//! Journals of any kind: opened, and replayed from any store on, also where open would refuse.

use crate::by_reference::put_numbers;
use crate::loans::Loans;
use random::{cases, Random, Reached};
use reference::volume::{Geometry, Layout, Phase, State, TagRule};
use volumes::any::{across_sectors, any_number, any_section, any_sector};
use volumes::any::{small_layout, with_journal};
use volumes::keyed::{any_key, retag};
use volumes::kinds::{kinds, stores_to_replay, Kind, KINDS};
use volumes::tag_sizes::TagSizes;
use volumes::{crosses, empty_staging, entry_place, formatted, geometry};
use volumes::{put_id, put_section, section, Entry};

/// Singly a few of the steps, by either call, then all that are left at once.
fn run(random: &mut Random, loans: &mut Loans) {
    for _ in 0..random.length(0..=6) {
        random.pick(&[Loans::step, Loans::told_step])(loans);
    }
    loans.advance(u64::MAX);
}

fn recovering(layout: &Layout, store: u64) -> State {
    State {
        layout: *layout,
        phase: Phase::Recovering { store },
        count: 0,
        id: 1,
    }
}

/// Opens a volume with staging of the right length, and finishes the recovery.
fn opened(random: &mut Random, volume: &[u8], layout: &Layout, key: Option<&[u8]>) {
    let staging = random.bytes(geometry(layout).staging_length());
    let mut loans = Loans::new(random, volume, &staging);
    loans.put_key(random, key);
    loans.query(layout.reserved);
    if loans.open(layout.reserved) == 0 {
        run(random, &mut loans);
        loans.read(random.number() % layout.provided);
    }
}

/// Whole and torn sections, misplaced ones, equal ids, ids near 2^64, entries not below the number provided, tags that do
/// not fit.
#[test]
fn opens() {
    opens_under(6_000, |_| None);
}

#[test]
fn opens_with_a_key() {
    opens_under(6_000, |random| Some(any_key(random)));
}

fn opens_under(count: u64, key: fn(&mut Random) -> Option<Vec<u8>>) {
    let mut reached = Reached::new();
    let mut sizes = TagSizes::new();
    cases(count, |random| {
        let layout = small_layout(random);
        sizes.add(&layout);
        let mut volume = with_journal(random, &layout);
        for kind in kinds(&volume, &geometry(&layout)) {
            reached.add(kind);
        }
        let key = key(random);
        if let Some(key) = &key {
            retag(&mut volume, &layout, TagRule::Hmac(key));
        }
        opened(random, &volume, &layout, key.as_deref());
    });
    reached.assert_each(100, KINDS);
    sizes.assert_all(500);
}

/// Where a recovery begins.
#[derive(Clone, Copy, Debug, PartialEq, Eq, PartialOrd, Ord)]
enum Start {
    /// At the first, the second or the third store of an entry.
    Store(u64),
    /// At the last of all.
    Last,
    /// Behind it.
    Behind,
}

/// Also at the last store and behind it, of journals with entries whose sectors are not provided: these have two or three stores as
/// others do.
#[test]
fn recoveries_from_any_store() {
    const NOT_PROVIDED: [Kind; 3] = [
        Kind::InOneSectorNotProvided,
        Kind::AcrossSectorsNotProvided,
        Kind::AcrossSectorsAtTheEnd,
    ];
    let mut reached = Reached::new();
    let mut with_not_provided = Reached::new();
    cases(3_000, |random| {
        let layout = small_layout(random);
        let geometry = geometry(&layout);
        let volume = with_journal(random, &layout);
        let staging = empty_staging(&geometry);
        let mut loans = Loans::new(random, &volume, &staging);
        let stores = stores_to_replay(&volume, &geometry);
        let any = random.length(0..=400);
        let few = random.length(0..=8);
        let last = stores.len().saturating_sub(1);
        let third = stores.iter().position(|number| *number == 2);
        let store = random.pick(&[0, few, any, third.unwrap_or(few), last, last + 1]);
        let start = match stores.get(store) {
            Some(_) if store == last => Start::Last,
            Some(number) => Start::Store(*number),
            None => Start::Behind,
        };
        reached.add(start);
        for kind in kinds(&volume, &geometry) {
            with_not_provided.add((kind, start));
        }
        loans.put_state(&recovering(&layout, store as u64));
        loans.read(random.number() % layout.provided);
        run(random, &mut loans);
    });
    let starts = [0, 1, 2].map(Start::Store).into_iter();
    reached.assert_each(20, starts.chain([Start::Last, Start::Behind]));
    for kind in NOT_PROVIDED {
        let starts = [Start::Store(0), Start::Last, Start::Behind];
        with_not_provided.assert_each(10, starts.map(|start| (kind, start)));
    }
}

/// Many sections, whose ids are in no order by place; most are whole.
fn with_many_sections(random: &mut Random, layout: &Layout, geometry: &Geometry) -> Vec<u8> {
    let mut volume = formatted(layout, 0);
    let misplaced = random.number().is_multiple_of(2);
    for number in 0..geometry.sections {
        let round = random.number() % 4;
        let id = match random.number() % 3 {
            // Equal ids, and any.
            0 if misplaced => random.pick(&[1, 2, 3]),
            1 if misplaced => any_number(random),
            _ => round * layout.sections + number as u64 + 1,
        };
        let entries: Vec<Entry> = (0..random.length(0..=3))
            .map(|_| Entry::new(any_sector(random, layout), random.number() as u8))
            .collect();
        put_section(
            &mut volume,
            geometry,
            number,
            &section(geometry, id, &entries),
        );
        if random.number().is_multiple_of(8) {
            let sector = random.length(0..=geometry.section_sectors - 1);
            put_id(&mut volume, geometry, number, sector, id.wrapping_sub(1));
        }
    }
    volume
}

#[test]
fn many_sections() {
    cases(60, |random| {
        let layout = Layout {
            sections: random.pick(&[5, 17, 64]),
            ..small_layout(random)
        };
        let geometry = geometry(&layout);
        let volume = with_many_sections(random, &layout, &geometry);
        opened(random, &volume, &layout, None);
        let mut loans = Loans::new(random, &volume, &empty_staging(&geometry));
        let store = random.pick(&[0, 1, 20]);
        loans.put_state(&recovering(&layout, store));
        run(random, &mut loans);
    });
}

/// Staging of any kind is committed and written back from any place on, with ids up to the last. Third stores come of entries that
/// have one and of such as have none, with sectors that are provided and that are not.
#[test]
fn commits_and_write_backs() {
    let mut reached = Reached::new();
    cases(4_000, |random| {
        let layout = small_layout(random);
        let geometry = geometry(&layout);
        let mut staging = match random.number() % 3 {
            0 => random.bytes(geometry.staging_length()),
            _ => any_section(random, &layout, &geometry, 0),
        };
        let count = random.length(1..=3) as u64;
        let near_the_end = geometry.section_sectors as u64 - random.length(1..=5) as u64;
        let phase = match random.number() % 3 {
            0 => Phase::Committing { sector: 0 },
            1 => Phase::Committing {
                sector: near_the_end,
            },
            _ => Phase::WritingBack {
                entry: random.number() % count,
                store: random.pick(&[0, 1, 2, 2]),
            },
        };
        if let Phase::WritingBack { entry, store: 2 } = phase {
            let any = any_number(random);
            let across = across_sectors(random, &geometry, any);
            let provided = any_sector(random, &layout);
            let sector = random.pick(&[provided, any, across]);
            let place = entry_place(&geometry, entry as usize);
            put_numbers(&mut staging[place..], &[sector]);
            reached.add((crosses(&geometry, sector), sector < layout.provided));
        }
        let volume = with_journal(random, &layout);
        let mut loans = Loans::new(random, &volume, &staging);
        loans.put_state(&State {
            layout,
            phase,
            count,
            id: random.pick(&[1, 2, 3, 1 << 32, u64::MAX - 2, u64::MAX - 1, u64::MAX]),
        });
        loans.read(random.number() % layout.provided);
        run(random, &mut loans);
        loans.flush();
    });
    for across in [false, true] {
        reached.assert_each(20, [(across, false), (across, true)]);
    }
}
