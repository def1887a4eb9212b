//! Random test cases, the same in each run, buffers to lend, and counts of what was reached.

mod reached;

pub use reached::{count_compared, Reached};

use std::env;
use std::ops::RangeInclusive;

/// Set to a seed, has each test run the case of that seed alone.
const SEED_VARIABLE: &str = "GAFFREEL_TEST_SEED";

/// Set to a whole number, has each test run so many times its number of cases, each with a seed of its own.
const TIMES_VARIABLE: &str = "GAFFREEL_TEST_TIMES";

/// The generator xorshift64* of Marsaglia and Vigna.
pub struct Random {
    state: u64,
}

impl Random {
    /// The numbers that follow from a seed.
    pub fn from_seed(seed: u64) -> Random {
        // Multiplied by an odd constant, so that seeds next to each other give unlike numbers; the state must not be 0.
        let state = seed.wrapping_mul(0x9e37_79b9_7f4a_7c15);
        Random {
            state: if state == 0 { 1 } else { state },
        }
    }

    /// Any number.
    pub fn number(&mut self) -> u64 {
        self.state ^= self.state >> 12;
        self.state ^= self.state << 25;
        self.state ^= self.state >> 27;
        self.state.wrapping_mul(0x2545_f491_4f6c_dd1d)
    }

    /// A number in a range.
    pub fn length(&mut self, range: RangeInclusive<usize>) -> usize {
        let choices = (range.end() - range.start() + 1) as u64;
        range.start() + (self.number() % choices) as usize
    }

    /// One of some values.
    pub fn pick<T: Copy>(&mut self, values: &[T]) -> T {
        values[self.length(0..=values.len() - 1)]
    }

    /// Overwrites all bytes.
    pub fn fill(&mut self, bytes: &mut [u8]) {
        for part in bytes.chunks_mut(8) {
            part.copy_from_slice(&self.number().to_le_bytes()[..part.len()]);
        }
    }

    /// As many bytes as asked for.
    pub fn bytes(&mut self, length: usize) -> Vec<u8> {
        let mut bytes = vec![0; length];
        self.fill(&mut bytes);
        bytes
    }
}

/// A buffer with random bytes around it that no call may touch.
#[derive(Clone, Debug, PartialEq, Eq)]
pub struct Lent {
    memory: Vec<u8>,
    length: usize,
}

impl Lent {
    // Odd, so that a buffer starts at an odd address: no alignment is asked.
    const MARGIN: usize = 61;

    /// A buffer of random bytes.
    pub fn new(random: &mut Random, length: usize) -> Lent {
        Lent {
            memory: random.bytes(length + 2 * Lent::MARGIN),
            length,
        }
    }

    /// A buffer of these bytes.
    pub fn of(random: &mut Random, bytes: &[u8]) -> Lent {
        let [before, after] = [(); 2].map(|()| random.bytes(Lent::MARGIN));
        Lent {
            memory: [&before, bytes, &after].concat(),
            length: bytes.len(),
        }
    }

    /// The buffer.
    pub fn buffer(&mut self) -> &mut [u8] {
        &mut self.memory[Lent::MARGIN..][..self.length]
    }

    /// The buffer, to look at.
    pub fn bytes(&self) -> &[u8] {
        &self.memory[Lent::MARGIN..][..self.length]
    }
}

/// Runs a case for each seed from 1 to `count`, or to so many times that as is asked for, and prints the seed of one that
/// fails. If none does, prints how many calls were compared.
pub fn cases(count: u64, mut case: impl FnMut(&mut Random)) {
    let mut run = |seed| {
        let _printed = PrintedOnFailure(seed);
        case(&mut Random::from_seed(seed));
    };
    let before = reached::compared();
    match single_seed() {
        Some(seed) => run(seed),
        None => (1..=count * times()).for_each(run),
    }
    let calls = reached::compared() - before;
    if calls > 0 {
        println!("{calls} calls compared");
    }
}

/// The seed of the only case to run, if one is asked for.
pub fn single_seed() -> Option<u64> {
    number_in(SEED_VARIABLE)
}

/// How many times the number of cases is to be run.
fn times() -> u64 {
    let times = number_in(TIMES_VARIABLE).unwrap_or(1);
    assert!(times > 0, "{TIMES_VARIABLE}=0 would test nothing");
    times
}

fn number_in(variable: &str) -> Option<u64> {
    let number = env::var(variable).ok()?;
    Some(number.parse().unwrap_or_else(|_| {
        panic!("{variable} is not a whole number: {number}");
    }))
}

struct PrintedOnFailure(u64);

impl Drop for PrintedOnFailure {
    fn drop(&mut self) {
        if std::thread::panicking() {
            eprintln!(
                "the failing case has {SEED_VARIABLE}={}: set, it is run alone, whatever {TIMES_VARIABLE} is",
                self.0
            );
        }
    }
}
