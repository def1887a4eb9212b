//! The ledger's own rules, on lists of records made by hand.

use random::cases;
use reference::volume::ledger::{Event, Ledger, Record};
use reference::volume::Layout;
use volumes::any::small_layout;

const LAYOUT: Layout = Layout {
    reserved: 0,
    log2_run: 3,
    tag_size: 32,
    sections: 2,
    provided: 4,
};

/// M for T 32.
const SECTION_SECTORS: usize = 88;

fn taken(event: Event) -> Record {
    Record {
        event,
        refused: false,
    }
}

fn refused(event: Event) -> Record {
    Record {
        event,
        refused: true,
    }
}

fn write(sector: u64, fill: u8) -> Event {
    let bytes = vec![fill; 512];
    Event::Write { sector, bytes }
}

/// The first byte of each content.
fn contents(transcript: &[Vec<Record>]) -> Vec<u8> {
    let ledger = Ledger::of(&LAYOUT, &transcript.concat()).unwrap();
    ledger.contents.iter().map(|content| content[0]).collect()
}

fn steps(count: usize) -> Vec<Record> {
    vec![taken(Event::Step); count]
}

/// Two writes to sector 1 and one to sector 2, and a flush.
fn flushed() -> Vec<Record> {
    vec![
        taken(write(1, 1)),
        taken(write(2, 2)),
        refused(write(3, 9)),
        taken(write(1, 3)),
        taken(Event::Flush),
    ]
}

#[test]
fn the_last_step_of_a_commit_enters_the_batch() {
    assert_eq!(
        contents(&[flushed(), steps(SECTION_SECTORS - 1)]),
        [0, 0, 0, 0]
    );
    assert_eq!(contents(&[flushed(), steps(SECTION_SECTORS)]), [0, 3, 2, 0]);
}

#[test]
fn refused_steps_and_flushes_do_not_count() {
    let refused_step = vec![refused(Event::Step); 10];
    let most = steps(SECTION_SECTORS - 1);
    assert_eq!(
        contents(&[flushed(), refused_step, most.clone()]),
        [0, 0, 0, 0]
    );
    let refused_flush = vec![taken(write(1, 1)), refused(Event::Flush)];
    assert_eq!(
        contents(&[refused_flush, steps(SECTION_SECTORS)]),
        [0, 0, 0, 0]
    );
    let others = vec![taken(Event::Read), refused(Event::Open), taken(Event::Open)];
    assert_eq!(contents(&[flushed(), most, others, steps(1)]), [0, 3, 2, 0]);
}

#[test]
fn a_cut_empties_the_batch() {
    let cut = vec![taken(Event::Cut)];
    let most = steps(SECTION_SECTORS - 1);
    let all = steps(SECTION_SECTORS);
    assert_eq!(
        contents(&[flushed(), most, cut.clone(), all.clone()]),
        [0, 0, 0, 0]
    );
    assert_eq!(contents(&[flushed(), all, cut]), [0, 3, 2, 0]);
}

#[test]
fn a_flush_of_an_empty_batch_enters_nothing() {
    let empty_flush = vec![taken(Event::Flush), taken(write(1, 1))];
    assert_eq!(
        contents(&[empty_flush, steps(SECTION_SECTORS)]),
        [0, 0, 0, 0]
    );
}

#[test]
fn newest_is_the_batch_then_the_content() {
    let transcript = [
        flushed(),
        steps(SECTION_SECTORS),
        vec![taken(write(2, 4)), taken(write(2, 5))],
    ];
    let ledger = Ledger::of(&LAYOUT, &transcript.concat()).unwrap();
    assert_eq!(ledger.entered, 1);
    let newest = |sector| ledger.newest(sector).map(|bytes| bytes[0]);
    assert_eq!(
        [0, 1, 2, 3, 4].map(newest),
        [Some(0), Some(3), Some(5), Some(0), None]
    );
}

/// Any list of records, possible or not, has a ledger.
#[test]
fn any_transcript() {
    cases(200, |random| {
        let layout = small_layout(random);
        let transcript: Vec<Record> = (0..random.length(0..=300))
            .map(|_| {
                let sector = random.pick(&[0, 1, layout.provided, u64::MAX]);
                let length = random.pick(&[0, 512, 513]);
                let bytes = random.bytes(length);
                let event = match random.number() % 8 {
                    0 => Event::Cut,
                    1 => Event::Open,
                    2 => Event::Write { sector, bytes },
                    3 => Event::Flush,
                    4 => Event::Read,
                    _ => Event::Step,
                };
                Record {
                    event,
                    refused: random.number().is_multiple_of(4),
                }
            })
            .collect();
        assert!(Ledger::of(&layout, &transcript).is_some());
    });
}
