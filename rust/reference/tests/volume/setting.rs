//! One small volume, states on it and journals for it.

use reference::volume::{Layout, Phase, State};
use volumes::{formatted, geometry, put_section, Entry};

pub const LAYOUT: Layout = Layout {
    reserved: 2,
    log2_run: 3,
    tag_size: 32,
    sections: 2,
    provided: 10,
};

/// The tag of sector 17, and of each number that leaves 17 when it is divided by 32, lies across two sectors; no other does.
pub const ACROSS_SECTORS: Layout = Layout {
    reserved: 2,
    log2_run: 5,
    tag_size: 30,
    sections: 2,
    provided: 24,
};

/// The whole layout's sectors.
pub const SECTORS: usize = 2 + 8 + 2 * 88 + 2 * 8 + 10;

/// Staging's length.
pub const STAGING: usize = 88 * 512;

pub fn filling() -> State {
    State {
        layout: LAYOUT,
        phase: Phase::Filling,
        count: 0,
        id: 1,
    }
}

pub fn filling_with(count: u64) -> State {
    State { count, ..filling() }
}

pub fn in_phase(phase: Phase, count: u64) -> State {
    State {
        phase,
        count,
        ..filling()
    }
}

pub fn committing(sector: u64) -> State {
    in_phase(Phase::Committing { sector }, 1)
}

pub fn writing_back(entry: u64, count: u64) -> State {
    in_phase(Phase::WritingBack { entry, store: 0 }, count)
}

pub fn recovering(store: u64) -> State {
    in_phase(Phase::Recovering { store }, 0)
}

/// Sections by number, id and entries.
pub type Sections<'a> = &'a [(usize, u64, &'a [Entry])];

/// A volume whose journal has these sections.
pub fn with_sections(sections: Sections) -> Vec<u8> {
    with_sections_of(&LAYOUT, sections)
}

/// The same with another layout.
pub fn with_sections_of(layout: &Layout, sections: Sections) -> Vec<u8> {
    let geometry = geometry(layout);
    let mut volume = formatted(layout, 0);
    for (number, id, entries) in sections {
        let section = volumes::section(&geometry, *id, entries);
        put_section(&mut volume, &geometry, *number, &section);
    }
    volume
}
