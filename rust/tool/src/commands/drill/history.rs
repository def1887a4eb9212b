//! Random batches of writes.

use gaffreel::volume::Sector;
use gaffreel::volume::SECTOR_LENGTH;
use random::Random;

/// The writes of a batch, in order.
pub type Batch = Vec<(u64, Sector)>;

/// So many batches of 1 to `writes` writes each.
pub fn random(seed: u64, batches: u64, writes: usize, provided: u64) -> Vec<Batch> {
    let mut random = Random::from_seed(seed);
    let mut before = Vec::new();
    (0..batches)
        .map(|_| {
            let count = random.length(1..=writes);
            let write = |_| random_write(&mut random, &mut before, provided);
            (0..count).map(write).collect()
        })
        .collect()
}

/// A write. A third are to a sector that was written before, in the same batch or in an earlier one.
fn random_write(random: &mut Random, before: &mut Vec<u64>, provided: u64) -> (u64, Sector) {
    let sector = match random.number() % 3 {
        0 if !before.is_empty() => random.pick(before),
        _ => random.number() % provided,
    };
    before.push(sector);
    let mut bytes = [0; SECTOR_LENGTH];
    random.fill(&mut bytes);
    (sector, bytes)
}
