//! All texts that the assembler is held to, by family. A text is made from its
//! number, so that any one can be made alone.

pub mod bounds;
pub mod counts;
pub mod edits;
pub mod faults;
pub mod grammar;
pub mod labels;
pub mod listings;
pub mod rewritten;
pub mod rules;
pub mod sample;

use std::collections::HashSet;
use std::sync::LazyLock;

pub struct Family {
    pub name: &'static str,
    /// How many texts it has.
    pub count: fn() -> usize,
    pub text: fn(usize) -> Vec<u8>,
    /// The call is given every text, and the program each so many-th: starting a
    /// program takes far longer than a call.
    pub each: usize,
}

pub const FAMILIES: [Family; 9] = [
    Family {
        name: "sample",
        count: || 1,
        text: |_| sample::TEXT.into(),
        each: 1,
    },
    Family {
        name: "grammar",
        count: || all_of_grammar().len(),
        text: |number| all_of_grammar()[number].clone(),
        each: 3,
    },
    Family {
        name: "labels",
        count: || all_of_labels().len(),
        text: |number| all_of_labels()[number].clone(),
        each: 3,
    },
    Family {
        name: "faults",
        count: || all_of_faults().len(),
        text: |number| all_of_faults()[number].clone(),
        each: 1,
    },
    Family {
        name: "counts",
        count: || all_of_counts().len(),
        text: |number| all_of_counts()[number].clone(),
        each: 1,
    },
    Family {
        name: "listings",
        count: || listings::LISTINGS,
        text: listings::text,
        each: 1,
    },
    Family {
        name: "rewritten",
        count: || rewritten::REWRITTEN,
        text: rewritten::text,
        each: 2,
    },
    Family {
        name: "edits",
        count: || edits::EDITED,
        text: edits::text,
        each: 3,
    },
    Family {
        name: "bounds",
        count: || all_of_bounds().len(),
        text: |number| all_of_bounds()[number].clone(),
        each: 1,
    },
];

fn all_of_grammar() -> &'static [Vec<u8>] {
    static ALL: LazyLock<Vec<Vec<u8>>> = LazyLock::new(|| unique(grammar::all()));
    &ALL
}

fn all_of_labels() -> &'static [Vec<u8>] {
    static ALL: LazyLock<Vec<Vec<u8>>> = LazyLock::new(|| unique(labels::all()));
    &ALL
}

fn all_of_faults() -> &'static [Vec<u8>] {
    static ALL: LazyLock<Vec<Vec<u8>>> = LazyLock::new(|| unique(faults::all()));
    &ALL
}

fn all_of_counts() -> &'static [Vec<u8>] {
    static ALL: LazyLock<Vec<Vec<u8>>> = LazyLock::new(|| unique(counts::all()));
    &ALL
}

fn all_of_bounds() -> &'static [Vec<u8>] {
    static ALL: LazyLock<Vec<Vec<u8>>> = LazyLock::new(|| unique(bounds::all()));
    &ALL
}

/// Each text once: a byte that is changed to what it was, and the like, give the
/// same text again.
fn unique(texts: Vec<Vec<u8>>) -> Vec<Vec<u8>> {
    let mut seen = HashSet::new();
    let is_new = |text: &Vec<u8>| seen.insert(text.clone());
    texts.into_iter().filter(is_new).collect()
}
