//! The port's programs that replay lists, each with its lists.

use crate::assembly;
use crate::readings;
use crate::record::Record;
use crate::words::{text_lists, tick_lists};

pub struct Replay {
    pub program: &'static str,
    /// The kinds of record that it knows.
    pub kinds: &'static [u8],
    pub fixed: fn() -> Vec<Record>,
    pub full: fn() -> Vec<Record>,
    /// A few short records, at least one of each kind.
    pub samples: fn() -> Vec<Record>,
    /// The kinds whose question begins with a count.
    pub counted: &'static [u8],
    /// Malformed records of the program's own, each with a name and without
    /// its length.
    pub malformed: fn() -> Vec<(String, Vec<u8>)>,
}

pub const REPLAYS: [Replay; 2] = [
    Replay {
        program: "replay_words",
        kinds: b"WNAEBHPLTFUMS",
        fixed: || {
            joined([
                text_lists::fixed(),
                tick_lists::fixed(),
                assembly::lists::fixed(),
            ])
        },
        full: || {
            joined([
                text_lists::full(),
                tick_lists::full(),
                assembly::lists::full(),
            ])
        },
        samples: || {
            joined([
                text_lists::samples(),
                tick_lists::samples(),
                assembly::lists::samples(),
            ])
        },
        counted: b"PLS",
        malformed: assembly::lists::malformed,
    },
    Replay {
        program: "replay_readings",
        kinds: b"RG",
        fixed: readings::lists::fixed,
        full: readings::lists::full,
        samples: readings::lists::samples,
        counted: b"RG",
        malformed: readings::lists::malformed,
    },
];

/// One list behind the other.
fn joined(lists: [Vec<Record>; 3]) -> Vec<Record> {
    lists.into_iter().flatten().collect()
}
