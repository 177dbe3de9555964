//! What was compared so far.

use std::collections::BTreeMap;
use std::fmt;

/// Failures that are shown; further ones are only counted.
const SHOWN: u64 = 20;

/// Counts comparisons.
#[derive(Debug, Default)]
pub struct Tally {
    passed: u64,
    failed: u64,
    /// How often each comparison was made.
    kinds: BTreeMap<&'static str, u64>,
    /// How often prost rejected a skipped record on the last level, which is known.
    departures: u64,
}

impl Tally {
    pub fn passes(&mut self, kind: &'static str) {
        *self.kinds.entry(kind).or_default() += 1;
        self.passed += 1;
    }

    /// Counts a failure, and shows what it is of and what was returned.
    pub fn fails(
        &mut self,
        kind: &'static str,
        case: impl fmt::Display,
        results: impl fmt::Display,
    ) {
        *self.kinds.entry(kind).or_default() += 1;
        self.failed += 1;
        if self.failed <= SHOWN {
            println!("failed: {case}\n{results}");
        }
    }

    /// Shows the words by which the last failure comes again.
    pub fn again(&self, words: impl fmt::Display) {
        if self.failed <= SHOWN {
            println!("  again: {words}");
        }
    }

    pub fn departs(&mut self) {
        self.departures += 1;
    }

    pub fn failed(&self) -> u64 {
        self.failed
    }

    /// Prints the counts, those of all comparisons last. Returns whether none failed.
    pub fn print(&self) -> bool {
        for (kind, count) in &self.kinds {
            println!("{kind}: {count}");
        }
        println!(
            "known difference, prost rejects a skipped record on the last level: {}",
            self.departures
        );
        println!("{} passed, {} failed", self.passed, self.failed);
        self.failed == 0
    }
}
