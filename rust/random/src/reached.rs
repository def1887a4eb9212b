//! Counts of what the cases of a test reached, so that a generator that stops producing a kind of case is found.

use crate::single_seed;
use std::cell::Cell;
use std::collections::BTreeMap;
use std::fmt::Debug;

thread_local! {
    static COMPARED: Cell<u64> = const { Cell::new(0) };
}

/// Counts a call whose answer and buffers were compared with what they must be.
pub fn count_compared() {
    COMPARED.set(COMPARED.get() + 1);
}

/// How many calls this thread has compared.
pub(crate) fn compared() -> u64 {
    COMPARED.get()
}

/// How often each kind of case was reached.
pub struct Reached<Kind> {
    counts: BTreeMap<Kind, u64>,
}

impl<Kind: Ord + Debug> Reached<Kind> {
    /// None yet.
    pub fn new() -> Reached<Kind> {
        Reached {
            counts: BTreeMap::new(),
        }
    }

    /// Counts one more of a kind.
    pub fn add(&mut self, kind: Kind) {
        *self.counts.entry(kind).or_default() += 1;
    }

    /// Each of these kinds was reached so many times. The case of a single seed need not reach any.
    pub fn assert_each(&self, least: u64, kinds: impl IntoIterator<Item = Kind>) {
        if single_seed().is_some() {
            return;
        }
        for kind in kinds {
            let count = self.counts.get(&kind).copied().unwrap_or(0);
            assert!(
                count >= least,
                "{kind:?} was reached {count} times, not {least}"
            );
        }
    }
}

impl<Kind: Ord + Debug> Default for Reached<Kind> {
    fn default() -> Reached<Kind> {
        Reached::new()
    }
}
