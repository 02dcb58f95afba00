//! Counts comparisons and shows the first few that differ.

use std::fmt;

/// How many differences of one part are shown.
pub const SHOWN: u64 = 5;

#[derive(Default)]
pub struct Tally {
    passed: u64,
    failed: u64,
    shown: u64,
}

impl Tally {
    /// One that shows nothing.
    pub fn silent() -> Self {
        Tally {
            shown: SHOWN,
            ..Tally::default()
        }
    }

    pub fn passed(&self) -> u64 {
        self.passed
    }

    pub fn failed(&self) -> u64 {
        self.failed
    }

    /// Counts one comparison; `difference` is asked only where it is shown.
    pub fn check(&mut self, same: bool, difference: impl FnOnce() -> String) {
        if same {
            self.passed += 1;
        } else {
            self.failed += 1;
            self.show(difference);
        }
    }

    /// Takes over comparisons that were counted elsewhere.
    pub fn add(&mut self, passed: u64, failed: u64) {
        self.passed += passed;
        self.failed += failed;
    }

    pub fn show(&mut self, difference: impl FnOnce() -> String) {
        if self.shown < SHOWN {
            println!("DIFFERENCE: {}", difference());
            self.shown += 1;
        }
    }
}

impl fmt::Display for Tally {
    fn fmt(&self, f: &mut fmt::Formatter<'_>) -> fmt::Result {
        write!(f, "{} passed, {} failed", self.passed, self.failed)
    }
}
