//! Short histories with a cut after every store, and before and after every store of the recovery that follows; journals of
//! one, two and three sections, and tags that lie across two sectors.

use crate::by_reference::{RECOVERING, WRITING_BACK};
use crate::loans::{Loans, Place, DONE};
use random::{cases, Random, Reached};
use reference::volume::{Layout, TagRule};
use volumes::keyed::any_key;
use volumes::{formatted_by, geometry};

/// The bit of what a step says that tells that the volume is filling.
const FILLING: u64 = 2;

/// Batches of sectors, written and flushed one after the other.
type Batches<'a> = &'a [&'a [u64]];

const fn layout(tag_size: u64, sections: u64) -> Layout {
    Layout {
        reserved: 1,
        log2_run: 3,
        tag_size,
        sections,
        provided: 10,
    }
}

/// The tag of sector 17 lies across two sectors.
const fn across_sectors(sections: u64) -> Layout {
    Layout {
        log2_run: 5,
        provided: 24,
        ..layout(30, sections)
    }
}

/// Histories with their layouts.
const HISTORIES: [(Layout, Batches); 8] = [
    (layout(32, 1), &[&[0], &[1, 0]]),
    (layout(8, 1), &[&[3, 3]]),
    (layout(16, 2), &[&[0, 8], &[0]]),
    (layout(32, 3), &[&[2], &[2], &[2, 2], &[2]]),
    (layout(20, 1), &[&[7, 0]]),
    (layout(1, 1), &[&[9]]),
    (across_sectors(1), &[&[16, 17, 18]]),
    (across_sectors(2), &[&[17], &[18, 17]]),
];

/// Where a tag is stored in part: between its two stores, in writing back and in recovering.
const IN_A_TAG: [Place; 2] = [(WRITING_BACK, 2), (RECOVERING, 2)];

/// How often there was a cut at each place.
type Cuts = Reached<Place>;

/// State and staging are lost, and the volume is opened again. Gives the stores to come.
fn cut_and_open(
    random: &mut Random,
    loans: &mut Loans,
    layout: &Layout,
    reached: &mut Cuts,
) -> u64 {
    if let Some(place) = loans.lent().place() {
        reached.add(place);
    }
    loans.cut(random);
    assert_eq!(loans.open(layout.reserved), DONE);
    loans.answer()[0]
}

fn write(random: &mut Random, loans: &mut Loans, sector: u64) {
    loans.fill(random, |lent| &mut lent.bytes);
    assert_eq!(loans.write(sector), DONE);
}

/// One step, by either call.
fn step(random: &mut Random, loans: &mut Loans) {
    let step = random.pick(&[Loans::step, Loans::told_step]);
    assert_eq!(step(loans), DONE);
}

/// Takes the steps that are left, and one that stores nothing.
fn advance_to_filling(loans: &mut Loans) {
    assert_eq!(loans.advance(u64::MAX), DONE);
    assert_eq!(loans.answer()[..3], [0, 0, FILLING]);
}

fn read_all(loans: &mut Loans, layout: &Layout) {
    for sector in 0..=layout.provided {
        loans.read(sector);
    }
}

/// Cuts a copy here, recovers it, and goes on with one more batch. Gives the number of the recovery's stores.
fn cut_here(random: &mut Random, loans: &Loans, layout: &Layout, reached: &mut Cuts) -> u64 {
    let mut loans = loans.clone();
    let stores = cut_and_open(random, &mut loans, layout, reached);
    for store in 0..=stores {
        let mut again = loans.clone();
        let found = cut_and_open(random, &mut again, layout, reached);
        assert_eq!(found, stores);
        advance_to_filling(&mut again);
        read_all(&mut again, layout);
        if store < stores {
            step(random, &mut loans);
        }
    }
    read_all(&mut loans, layout);
    write(random, &mut loans, 0);
    assert_eq!(loans.flush(), DONE);
    advance_to_filling(&mut loans);
    cut_and_open(random, &mut loans, layout, reached);
    stores
}

/// A fresh volume for the calls with this key, or for those without one.
fn fresh(random: &mut Random, layout: &Layout, key: Option<&[u8]>) -> Loans {
    let rule = key.map_or(TagRule::Digest, TagRule::Hmac);
    let staging = random.bytes(geometry(layout).staging_length());
    let mut loans = Loans::new(random, &formatted_by(rule, layout, 1), &staging);
    loans.put_key(random, key);
    loans
}

/// Works the batches on a fresh volume, and cuts before each and after each store. Gives the stores of each recovery.
fn cut_everywhere(
    random: &mut Random,
    layout: &Layout,
    batches: Batches,
    key: Option<&[u8]>,
    reached: &mut Cuts,
) -> Vec<u64> {
    let mut loans = fresh(random, layout, key);
    let mut recoveries = vec![];
    cut_and_open(random, &mut loans, layout, reached);
    for batch in batches {
        for sector in *batch {
            write(random, &mut loans, *sector);
        }
        recoveries.push(cut_here(random, &loans, layout, reached));
        assert_eq!(loans.flush(), DONE);
        loop {
            step(random, &mut loans);
            recoveries.push(cut_here(random, &loans, layout, reached));
            if loans.answer()[2] & FILLING != 0 {
                break;
            }
        }
        read_all(&mut loans, layout);
    }
    recoveries
}

#[test]
fn cut_after_each_store_of_short_histories() {
    cut_short_histories(|_| None);
}

#[test]
fn cut_after_each_store_under_a_key() {
    cut_short_histories(|random| Some(any_key(random)));
}

fn cut_short_histories(key: fn(&mut Random) -> Option<Vec<u8>>) {
    let mut reached = Reached::new();
    let mut cuts = Cuts::new();
    cases(1, |random| {
        for (layout, batches) in HISTORIES {
            let key = key(random);
            let recoveries = cut_everywhere(random, &layout, batches, key.as_deref(), &mut cuts);
            for stores in recoveries {
                reached.add((layout.sections, stores > 0));
            }
        }
    });
    // Each of the three tags once in writing back; each of its recoveries is cut there again.
    cuts.assert_each(3, [IN_A_TAG[0]]);
    cuts.assert_each(15, [IN_A_TAG[1]]);
    // With nothing to replay, and with something.
    for sections in 1..=3 {
        reached.assert_each(80, [(sections, false)]);
        reached.assert_each(5, [(sections, true)]);
    }
}
