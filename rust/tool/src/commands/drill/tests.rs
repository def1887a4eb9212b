//! That a drill tells of what is lost: the proved library loses nothing, so what must be there is told wrong. And that it makes
//! the stores that are counted before.

use super::cuts::{Cuts, Lost};
use super::{report, stores, Batch, Drill, Settings, Stop};
use crate::layout::sizes;
use crate::volume::{Tags, Volume};
use gaffreel::volume::{self, Layout};

const SETTINGS: Settings = Settings {
    reserved: 0,
    seed: 5,
    batches: 2,
    writes: 3,
    recovery_cuts: None,
    key_file: None,
};

const LAYOUT: Layout = Layout {
    reserved: 0,
    log2_run: 4,
    tag_size: 32,
    sections: 1,
    provided: 16,
};

/// The tag of sector 17 lies across two sectors.
const ACROSS_SECTORS: Layout = Layout {
    log2_run: 5,
    tag_size: 30,
    provided: 24,
    ..LAYOUT
};

/// A volume just formatted, with a sector behind the last run that has these bytes.
fn formatted(layout: &Layout, behind: u8) -> Volume {
    let mut bytes = vec![0; sizes(layout).sectors * 512];
    bytes.extend([behind; 512]);
    volume::format(&mut bytes, layout).unwrap();
    Volume::recovered(bytes, 0).unwrap()
}

fn drill() -> (Drill<'static>, Vec<Batch>) {
    let volume = formatted(&LAYOUT, 0);
    let history = SETTINGS.history(&volume);
    (drill_of(volume, &history), history)
}

fn drill_of(volume: Volume, history: &[Batch]) -> Drill<'static> {
    Drill::new(volume, &Tags::Digest, &SETTINGS, history).unwrap()
}

/// A batch of one write each, of sectors around the one whose tag lies across two, and one of all of them.
#[test]
fn stores_of_a_history() {
    let batch = |sectors: &[u64]| sectors.iter().map(|sector| (*sector, [1; 512])).collect();
    let history: [Batch; 4] = [
        batch(&[16]),
        batch(&[17]),
        batch(&[18]),
        batch(&[17, 16, 17]),
    ];
    for (layout, counted) in [
        (ACROSS_SECTORS, 4 * 88 + 2 + 3 + 2 + 3 + 2 + 3),
        (
            Layout {
                tag_size: 20,
                ..ACROSS_SECTORS
            },
            4 * 104 + 2 * 6,
        ),
    ] {
        let mut drill = drill_of(formatted(&layout, 0), &history);
        assert!(drill.play(&history).is_ok());
        assert_eq!(drill.stores, counted);
        assert_eq!(stores(&history, &sizes(&layout)), counted);
    }
}

fn told(drill: &mut Drill, history: &[Batch]) -> String {
    let Err(Stop::Lost(lost)) = drill.play(history) else {
        panic!("it is survived");
    };
    let mut out = Vec::new();
    report(&mut out, &SETTINGS, drill.stores, &lost).unwrap();
    String::from_utf8(out).unwrap()
}

#[test]
fn of_a_sector_with_other_bytes() {
    let (mut drill, history) = drill();
    drill.contents.enter(&vec![(7, [1; 512])]);
    assert_eq!(
        told(&mut drill, &history),
        "not survived: a cut after 0 stores: sector 7 has other bytes\n\
         again, with the image as it is: --reserved 0 --seed 5 --batches 2 --writes 3\n"
    );
}

#[test]
fn of_a_batch_that_is_acknowledged_too_late() {
    let (mut drill, history) = drill();
    drill.section_sectors += 1;
    let told = told(&mut drill, &history);
    assert!(told.starts_with("not survived: a cut after 88 stores: store 88 of a batch says"));
}

#[test]
fn of_bytes_outside_journal_and_runs() {
    let (mut drill, history) = drill();
    drill.cuts = Cuts::new(&formatted(&LAYOUT, 1), &Tags::Digest, u64::MAX);
    let told = told(&mut drill, &history);
    assert!(told.contains("bytes outside journal and runs were changed"));
}

#[test]
fn of_a_recovery_that_was_cut() {
    let lost = Lost {
        recovery_stores: Some(1),
        what: "sector 3 has other bytes".into(),
    };
    let settings = Settings {
        recovery_cuts: Some(9),
        key_file: Some("key".into()),
        ..SETTINGS
    };
    let mut out = Vec::new();
    report(&mut out, &settings, 90, &lost).unwrap();
    assert_eq!(
        String::from_utf8(out).unwrap(),
        "not survived: a cut after 90 stores, and one after 1 store of the recovery: sector 3 has other bytes\n\
         again, with the image as it is: --reserved 0 --seed 5 --batches 2 --writes 3 --recovery-cuts 9 --key-file key\n"
    );
}
