//! Volumes that are formatted: every byte of them.

use crate::loans::{Loans, DONE};
use random::{cases, Random};
use reference::volume::Layout;
use volumes::any::any_tag_size;
use volumes::geometry;
use volumes::keyed::{any_key, KEY_LENGTHS};
use volumes::tag_sizes::TagSizes;

/// A layout in range whose volume has some hundred sectors.
fn layout(random: &mut Random) -> Layout {
    let provided = match random.number() % 4 {
        0 => random.length(1..=8),
        1 => random.length(1..=20) * 8,
        _ => random.length(1..=300),
    };
    Layout {
        reserved: random.pick(&[0, 1, 63, 64]),
        log2_run: random.length(3..=15) as u64,
        tag_size: any_tag_size(random),
        sections: random.pick(&[1, 1, 2, 5]),
        provided: provided as u64,
    }
}

/// A volume of any bytes but for the superblock, which is zero.
fn unformatted(random: &mut Random, layout: &Layout, sectors: usize) -> Vec<u8> {
    let mut volume = random.bytes(sectors * 512);
    let start = layout.reserved as usize * 512;
    let end = volume.len().min(start + 8 * 512);
    volume[start.min(end)..end].fill(0);
    volume
}

/// Formatted, queried, opened, a few sectors read and all verified.
#[test]
fn formats() {
    formats_under(|_| None);
}

#[test]
fn formats_with_a_key() {
    formats_under(|random| Some(any_key(random)));
}

fn formats_under(key: fn(&mut Random) -> Option<Vec<u8>>) {
    let mut sizes = TagSizes::new();
    cases(400, |random| {
        let layout = layout(random);
        sizes.add(&layout);
        let geometry = geometry(&layout);
        let sectors = geometry.sectors + random.length(0..=2);
        let volume = unformatted(random, &layout, sectors);
        let staging = random.bytes(geometry.staging_length());
        let mut loans = Loans::new(random, &volume, &staging);
        let key = key(random);
        loans.put_key(random, key.as_deref());
        assert_eq!(loans.format(&layout), DONE);
        assert_eq!(loans.query(layout.reserved), DONE);
        assert_eq!(loans.answer()[0], geometry.staging_length() as u64);
        assert_eq!(loans.open(layout.reserved), DONE);
        for sector in [0, random.number() % layout.provided, layout.provided - 1] {
            assert_eq!(loans.read(sector), DONE);
            assert_eq!(loans.lent().bytes.bytes(), [0; 512]);
        }
        assert_eq!(loans.verify(0, layout.provided), DONE);
    });
    sizes.assert_all(50);
}

/// Each rule that a format can meet.
#[test]
fn refused_formats() {
    cases(600, |random| {
        let mut layout = layout(random);
        let sectors = geometry(&layout).sectors;
        let shorter = random.length(0..=sectors - 1);
        let sectors = random.pick(&[sectors, sectors, sectors - 1, shorter]);
        let mut volume = unformatted(random, &layout, sectors);
        match random.number() % 8 {
            0 => layout.reserved = random.pick(&[65, 1 << 32, u64::MAX]),
            1 => layout.log2_run = random.pick(&[0, 2, 16, 64, 259, u64::MAX]),
            2 => {
                let any = random.number() % 40;
                layout.tag_size = random.pick(&[any, 0, 33, 256 + 20, (1 << 32) + 8, u64::MAX]);
            }
            3 => layout.sections = random.pick(&[0, 65, (1 << 32) + 1, u64::MAX]),
            4 => layout.provided = random.pick(&[0, 65_536, 65_537, (1 << 32) + 1, u64::MAX]),
            // One byte of the superblock, if it is there.
            5 => {
                let place = layout.reserved as usize * 512 + random.length(0..=4095);
                if let Some(byte) = volume.get_mut(place) {
                    *byte = 1;
                }
            }
            _ => {}
        }
        let mut loans = Loans::new(random, &volume, &[]);
        loans.clone().format(&layout);
        let length = random.pick(&KEY_LENGTHS);
        let key = random.bytes(length);
        loans.put_key(random, Some(&key));
        loans.format(&layout);
    });
}

/// The greatest volumes that there can be: with the largest sections, with tags that lie across two sectors, with the largest tag
/// areas.
#[test]
fn greatest_volumes() {
    cases(1, |random| {
        for (tag_size, reserved, sections, provided) in
            [(8, 64, 64, 53_688), (20, 0, 1, 62_864), (32, 0, 1, 61_344)]
        {
            let layout = Layout {
                reserved,
                log2_run: 15,
                tag_size,
                sections,
                provided,
            };
            let geometry = geometry(&layout);
            assert_eq!(geometry.sectors, 65_536);
            let volume = unformatted(random, &layout, geometry.sectors);
            let staging = random.bytes(geometry.staging_length());
            let loans = Loans::new(random, &volume, &staging);
            for key in [None, Some(&[7; 256][..])] {
                let mut loans = loans.clone();
                loans.put_key(random, key);
                assert_eq!(loans.format(&layout), DONE);
                assert_eq!(loans.open(reserved), DONE);
                assert_eq!(loans.read(provided - 1), DONE);
                assert_eq!(loans.verify(0, provided), DONE);
                assert_eq!(loans.verify(1, provided), 6);
            }
        }
    });
}
