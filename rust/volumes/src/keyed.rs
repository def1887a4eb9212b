//! Volumes, sections and keys for the calls with a key.

use crate::{entry_place, tag_place};
use random::Random;
use reference::volume::{digest_of_sector, Geometry, Layout, TagRule};

/// The lengths of keys at which a rule changes, and those beside them.
pub const KEY_LENGTHS: [usize; 8] = [0, 1, 63, 64, 65, 255, 256, 257];

/// A key that is taken, often of a length at which a rule changes.
pub fn any_key(random: &mut Random) -> Vec<u8> {
    let any = random.length(1..=256);
    let length = random.pick(&[1, 32, 63, 64, 65, 255, 256, any, any]);
    random.bytes(length)
}

/// A length that no key has.
pub fn wrong_key_length(random: &mut Random) -> usize {
    let long = random.length(258..=2_000);
    random.pick(&[0, 0, 257, long, 65_536 + 64])
}

/// Another key that is taken: of any kind, or with one bit or the length changed.
pub fn other_key(random: &mut Random, key: &[u8]) -> Vec<u8> {
    let mut other = key.to_vec();
    match random.number() % 3 {
        0 => other = any_key(random),
        1 => other[random.length(0..=key.len() - 1)] ^= 1 << random.length(0..=7),
        // Zeros behind a short key would be the same key.
        _ if key.len() < 256 => other.push(1),
        _ => other.truncate(255),
    }
    match other == key {
        true => vec![!key[0]],
        false => other,
    }
}

/// Gives the tags of a volume that fit without a key the values that they have by a rule, in the runs and in the journal. The
/// volume may be shorter than its layout.
pub fn retag(volume: &mut [u8], layout: &Layout, rule: TagRule) {
    let Some(geometry) = layout.geometry() else {
        return;
    };
    let length = geometry.staging_length();
    let journal = (geometry.journal() * 512).min(volume.len());
    let sections = volume[journal..].chunks_exact_mut(length);
    for section in sections.take(geometry.sections) {
        retag_section(section, &geometry, rule);
    }
    for sector in 0..layout.provided {
        let home = geometry.home(sector).expect("it is provided");
        let Some(data) = volume.get(home.data * 512..(home.data + 1) * 512) else {
            return;
        };
        let data = data.try_into().expect("a sector");
        let tag = &mut volume[home.tag..home.tag + geometry.tag_size];
        replace(tag, sector, &data, rule);
    }
}

/// The same for a section, of the journal or in staging.
pub fn retag_section(section: &mut [u8], geometry: &Geometry, rule: TagRule) {
    for entry in 0..geometry.entries {
        let place = entry_place(geometry, entry);
        let mut data = [0; 512];
        data[..504].copy_from_slice(&section[(8 + entry) * 512..][..504]);
        data[504..].copy_from_slice(&section[place + 8..place + 16]);
        let mut sector = [0; 8];
        sector.copy_from_slice(&section[place..place + 8]);
        let tag = &mut section[tag_place(geometry, entry)];
        replace(tag, u64::from_le_bytes(sector), &data, rule);
    }
}

fn replace(tag: &mut [u8], sector: u64, data: &[u8; 512], rule: TagRule) {
    if digest_of_sector(sector, data).starts_with(tag) {
        let whole = rule.of_sector(sector, data).expect("the key is taken");
        tag.copy_from_slice(&whole[..tag.len()]);
    }
}
