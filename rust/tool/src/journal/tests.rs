//! The journal as read here, against the reference's open and recovery, on journals of any kind.

use super::{next_id, replay_order, sections, Condition, Entry, Section};
use crate::layout::tests::wrapped;
use crate::layout::{sizes, Sizes};
use crate::volume::Tags;
use random::{Random, Reached};
use reference::volume::{Geometry, Layout, Opened, Refusal, TagRule};
use volumes::any::{small_layout, with_journal};
use volumes::keyed::{any_key, retag};
use volumes::kinds::{kinds, Kind};
use volumes::stores_of;
use volumes::tag_sizes::TagSizes;

/// A volume with a journal of any kind, half of them with a key, and what the reference's open says of it.
struct Case {
    layout: Layout,
    tags: Tags,
    volume: Vec<u8>,
    staging: Vec<u8>,
    geometry: Geometry,
    sizes: Sizes,
    opened: Result<Opened, Refusal>,
}

fn case(random: &mut Random) -> Case {
    let layout = small_layout(random);
    let mut volume = with_journal(random, &layout);
    let geometry = layout.geometry().unwrap();
    let mut staging = vec![0; geometry.staging_length()];
    let tags = match random.number() % 2 {
        0 => Tags::Digest,
        _ => Tags::Hmac(any_key(random)),
    };
    let rule = match &tags {
        Tags::Digest => TagRule::Digest,
        Tags::Hmac(key) => TagRule::Hmac(key),
    };
    retag(&mut volume, &layout, rule);
    let opened = reference::volume::open(&volume, layout.reserved, &mut staging, rule);
    Case {
        layout,
        tags,
        volume,
        staging,
        geometry,
        sizes: sizes(&wrapped(&layout)),
        opened,
    }
}

/// What open must say of these sections: the next id and the number of stores, or refusal 10, 11, 6 or 7.
fn expected(sections: &[Section], geometry: &Geometry, tags: &Tags) -> Result<(u64, u64), Refusal> {
    let id = next_id(sections).ok_or(Refusal::IdsUsedUp)?;
    let mut whole = sections
        .iter()
        .filter(|section| section.condition == Condition::Whole);
    let misplaced = whole.find(|section| geometry.section_of(section.id) != section.number);
    if let Some(section) = misplaced {
        let section = section.number as u64;
        return Err(Refusal::SectionMisplaced { section });
    }
    let mut stores = 0;
    for section in replay_order(sections) {
        for entry in &section.entries {
            test(section, entry, geometry, tags)?;
            stores += stores_of(geometry, entry.sector);
        }
    }
    Ok((id, stores))
}

fn test(section: &Section, entry: &Entry, geometry: &Geometry, tags: &Tags) -> Result<(), Refusal> {
    let (section, place) = (section.number as u64, entry.place as u64);
    if entry.sector >= geometry.provided as u64 {
        return Err(Refusal::JournalSector {
            section,
            entry: place,
        });
    }
    match entry.fits(tags) {
        Some(true) => Ok(()),
        _ => Err(Refusal::JournalTag {
            section,
            entry: place,
        }),
    }
}

#[test]
fn next_id_stores_and_refusals_are_those_of_open() {
    let mut reached = Reached::new();
    let mut of_journals = Reached::new();
    let mut tag_sizes = TagSizes::new();
    random::cases(600, |random| {
        let case = case(random);
        tag_sizes.add(&case.layout);
        for kind in kinds(&case.volume, &case.geometry) {
            of_journals.add(kind);
        }
        let sections = sections(&case.volume, &case.sizes);
        assert_eq!(sections.len(), case.geometry.sections);
        let said = case
            .opened
            .map(|opened| (opened.state.id, opened.stores_to_come));
        assert_eq!(expected(&sections, &case.geometry, &case.tags), said);
        reached.add(said.is_err());
    });
    reached.assert_each(50, [false, true]);
    of_journals.assert_each(50, [Kind::InOneSector, Kind::AcrossSectors, Kind::Padding]);
    tag_sizes.assert_all(50);
}

/// The entries in replay order, brought home one after the other, leave what the reference's recovery leaves.
#[test]
fn entries_in_replay_order_are_what_a_recovery_stores() {
    random::cases(200, |random| {
        let mut case = case(random);
        let Ok(mut opened) = case.opened else {
            return;
        };
        let mut volume = case.volume.clone();
        for section in replay_order(&sections(&case.volume, &case.sizes)) {
            for entry in &section.entries {
                let home = case.geometry.home(entry.sector).unwrap();
                volume[home.data * 512..][..512].copy_from_slice(&entry.data.unwrap());
                volume[home.tag..][..entry.tag.len()].copy_from_slice(&entry.tag);
            }
        }
        reference::volume::recover(&mut opened.state, &mut case.volume, &case.staging).unwrap();
        assert!(volume == case.volume);
    });
}

/// Five sections: never used, whole, and three that an id tears.
fn torn_at_three_places() -> (Vec<u8>, Sizes) {
    let layout = Layout {
        reserved: 1,
        log2_run: 3,
        tag_size: 32,
        sections: 5,
        provided: 8,
    };
    let geometry = layout.geometry().unwrap();
    let mut volume = volumes::formatted(&layout, 0);
    let good = volumes::Entry::new(3, 1);
    let entries = [good, volumes::Entry::new(4, 2).with_wrong_tag()];
    for number in 1..5 {
        let section = volumes::section(&geometry, number as u64 + 1, &entries);
        volumes::put_section(&mut volume, &geometry, number, &section);
    }
    volumes::put_id(&mut volume, &geometry, 2, 9, 1);
    volumes::put_id(&mut volume, &geometry, 3, 0, 0);
    volumes::put_id(&mut volume, &geometry, 4, 87, 0);
    (volume, sizes(&wrapped(&layout)))
}

#[test]
fn conditions_of_sections() {
    let (volume, sizes) = torn_at_three_places();
    let found = sections(&volume, &sizes);
    let section = |number: usize| {
        let entries = found[number].entries.iter();
        let fits = entries.map(|entry| (entry.sector, entry.fits(&Tags::Digest)));
        let fits: Vec<_> = fits.collect();
        (found[number].condition, fits)
    };
    let torn = |stop, id| Condition::Torn { stop, id };
    let both = vec![(3, Some(true)), (4, Some(false))];
    assert_eq!(section(0), (Condition::NeverUsed, vec![]));
    assert_eq!(section(1), (Condition::Whole, both.clone()));
    // The second entry's data sector, the tenth, is the one at which the scan stops.
    let one = vec![(3, Some(true)), (4, None)];
    assert_eq!(section(2), (torn(9, 1), one));
    assert_eq!(section(3), (torn(1, 4), vec![]));
    assert_eq!(section(4), (torn(87, 0), both));
    assert_eq!(next_id(&found), Some(6));
}
