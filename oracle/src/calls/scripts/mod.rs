//! All scripts that `massey_calls` is held to, by family. A script is made from
//! its number, so that any one can be made alone.

pub mod counters;
pub mod direct;
pub mod draft;
pub mod edges;
pub mod limits;
pub mod lists;
pub mod live;
pub mod malformed;
pub mod random;
pub mod records;
pub mod sample;
pub mod stretches;

use crate::calls::snapshots;

pub struct Family {
    pub name: &'static str,
    /// How many scripts it has.
    pub count: fn() -> usize,
    pub script: fn(usize) -> Vec<u8>,
}

pub const FAMILIES: [Family; 19] = [
    Family {
        name: "sample",
        count: || 1,
        script: |_| sample::script(),
    },
    Family {
        name: "example_16",
        count: || 2,
        script: limits::example_16,
    },
    Family {
        name: "limits",
        count: || limits::LIMIT_SCRIPTS,
        script: limits::limits,
    },
    Family {
        name: "anew",
        count: || limits::ANEW_SCRIPTS,
        script: limits::anew,
    },
    Family {
        name: "ticks",
        count: || edges::TICK_SCRIPTS,
        script: edges::ticks,
    },
    Family {
        name: "counters",
        count: || counters::COUNTER_SCRIPTS,
        script: counters::counters,
    },
    Family {
        name: "live",
        count: || live::states().len(),
        script: live::script,
    },
    Family {
        name: "sets",
        count: || edges::FIELDS.len(),
        script: edges::sets,
    },
    Family {
        name: "record_ticks",
        count: || edges::TICK_SCRIPTS,
        script: records::ticks,
    },
    Family {
        name: "record_bytes",
        count: || snapshots::RECORD,
        script: records::bytes,
    },
    Family {
        name: "unwritten",
        count: || records::UNWRITTEN_SCRIPTS,
        script: records::unwritten,
    },
    Family {
        name: "malformed",
        count: || malformed::all().len(),
        script: malformed::one,
    },
    Family {
        name: "random",
        count: || random::RANDOM_SCRIPTS,
        script: random::any,
    },
    Family {
        name: "lists",
        count: || lists::LIST_SCRIPTS,
        script: lists::script,
    },
    Family {
        name: "direct",
        count: || direct::DIRECT_SCRIPTS,
        script: direct::any,
    },
    Family {
        name: "stretch_budgets",
        count: || stretches::BUDGET_SCRIPTS,
        script: stretches::budgets,
    },
    Family {
        name: "stretch_ends",
        count: || stretches::END_SCRIPTS,
        script: stretches::ends,
    },
    Family {
        name: "stretch_counters",
        count: || stretches::FULL_SCRIPTS,
        script: stretches::full,
    },
    Family {
        name: "stretch_begun",
        count: || stretches::BEGUN_SCRIPTS,
        script: stretches::begun,
    },
];
