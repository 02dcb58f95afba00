//! All inputs that `massey_report` is held to, by family. A case is one input,
//! or several that belong together; it is made from its number, so that any
//! one can be made alone.

pub mod cleared;
pub mod count_loops;
pub mod counts;
pub mod examples;
pub mod opcodes;
pub mod owner_bytes;
pub mod owner_pairs;
pub mod pairs;
pub mod programs;
pub mod random;
pub mod readers;
pub mod refused;
pub mod sample;
pub mod stops;
pub mod stretches;

use crate::report::guarded::Input;
use crate::report::program::bytes;
use std::collections::HashSet;
use std::sync::LazyLock;

pub struct Family {
    pub name: &'static str,
    /// How many cases it has.
    pub count: fn() -> usize,
    /// What the program reads, once for each input of the case.
    pub inputs: Inputs,
    pub relation: Relation,
}

/// What holds between the answers of one case.
#[derive(Clone, Copy, Debug, PartialEq, Eq)]
pub enum Relation {
    /// Nothing.
    Free,
    /// They are reports, and all the same.
    Same,
    /// They are reports, and none is the first.
    Different,
    /// They are reports of one image with the same owners for one reader, and so of the
    /// same instructions, up to the end of each: after as many of them, as many words
    /// are hidden in each.
    Counted,
}

pub const FAMILIES: [Family; 38] = [
    free(
        "sample",
        || sample::inputs().len(),
        |number| vec![sample::inputs()[number].clone()],
    ),
    free(
        "examples",
        || examples::all().len(),
        |number| vec![bytes(&examples::all()[number])],
    ),
    free(
        "long",
        || examples::long_runs().len(),
        |number| vec![bytes(&examples::long_runs()[number])],
    ),
    free(
        "opcodes",
        || opcodes::OPCODE_CASES,
        |number| all_bytes(&opcodes::one(number)),
    ),
    free(
        "behind_a_load",
        || 1,
        |_| owned_bytes(opcodes::behind_a_load()),
    ),
    free(
        "cleared",
        || cleared::words().len(),
        |number| all_bytes(&cleared::one(number)),
    ),
    free("each_mark", || 1, |_| owned_bytes(opcodes::each_mark())),
    free("stops", || 1, |_| owned_bytes(stops::stops())),
    free("registers", || 1, |_| owned_bytes(stops::registers())),
    free("addresses", || 1, |_| owned_bytes(stops::addresses())),
    free(
        "random",
        || random::RANDOM_INPUTS,
        |number| vec![bytes(&random::any(number))],
    ),
    counted(
        "budgets",
        || random::BUDGET_PROGRAMS,
        |number| all_bytes(&random::every_budget(number)),
    ),
    free(
        "refused",
        || all_refused().len(),
        |number| vec![all_refused()[number].clone()],
    ),
    free(
        "lengths",
        || all_lengths().len(),
        |number| vec![all_lengths()[number].clone()],
    ),
    free(
        "damaged",
        || refused::DAMAGED_INPUTS,
        |number| vec![refused::damaged(number)],
    ),
    same(
        "hidden",
        || pairs::HIDDEN_CASES,
        |number| all_bytes(&pairs::hidden(number)),
    ),
    same(
        "cleared_pairs",
        || cleared::PAIR_CASES,
        |number| all_bytes(&cleared::pairs(number)),
    ),
    different(
        "open",
        || pairs::OPEN_CASES,
        |number| all_bytes(&pairs::open(number)),
    ),
    same(
        "values",
        || 256,
        |number| all_bytes(&pairs::values(0, number)),
    ),
    // A few of their values; the model is asked for all of them.
    same(
        "more_values",
        || pairs::MORE_VALUES,
        |number| all_bytes(&pairs::more_values(number)),
    ),
    different(
        "shown_values",
        || pairs::SHOWN_VALUES,
        |number| all_bytes(&pairs::shown_values(number)),
    ),
    counted(
        "stretch_ends",
        || stretches::END_CASES,
        |number| all_bytes(&stretches::ends(number)),
    ),
    same(
        "stretch_random",
        || stretches::RANDOM_CASES,
        |number| all_bytes(&stretches::any(number)),
    ),
    counted(
        "count_stores",
        || counts::STORE_CASES,
        |number| all_bytes(&counts::stores(number)),
    ),
    counted(
        "count_stops",
        || all_stops().len(),
        |number| all_bytes(&all_stops()[number]),
    ),
    counted(
        "count_marks",
        || counts::MARK_CASES,
        |number| all_bytes(&counts::marks(number)),
    ),
    counted(
        "count_straight",
        || all_straight().len(),
        |number| all_bytes(&all_straight()[number]),
    ),
    counted(
        "count_sweeps",
        || count_loops::SWEEP_CASES,
        |number| all_bytes(&count_loops::sweeps(number)),
    ),
    counted(
        "count_stretches",
        || count_loops::STRETCH_CASES,
        |number| all_bytes(&count_loops::stretches(number)),
    ),
    counted(
        "count_long",
        || count_loops::long().len(),
        |number| all_bytes(&count_loops::long()[number]),
    ),
    free(
        "owner_bytes",
        || owner_bytes::BYTE_CASES,
        |number| all_bytes(&owner_bytes::bytes(number)),
    ),
    free(
        "owner_unions",
        || owner_bytes::OWNER_BYTES,
        |number| all_bytes(&owner_bytes::unions(number)),
    ),
    free(
        "owner_mdr",
        || owner_bytes::OWNER_BYTES,
        |number| all_bytes(&owner_bytes::mdr(number)),
    ),
    counted(
        "owner_stores",
        || owner_bytes::STORE_CASES,
        |number| all_bytes(&owner_bytes::stores(number)),
    ),
    different(
        "clearances",
        || owner_pairs::CLEARANCE_CASES,
        |number| all_bytes(&owner_pairs::clearances(number)),
    ),
    different(
        "owner_bits",
        || owner_pairs::OWNER_CASES,
        |number| all_bytes(&owner_pairs::owner_bits(number)),
    ),
    same(
        "words_outside",
        || all_words(true).len(),
        |number| all_bytes(&owner_pairs::words(all_words(true)[number])),
    ),
    different(
        "words_inside",
        || all_words(false).len(),
        |number| all_bytes(&owner_pairs::words(all_words(false)[number])),
    ),
];

/// What the program reads, by the number of a case.
type Inputs = fn(usize) -> Vec<Vec<u8>>;

/// A family whose inputs have nothing to do with each other.
const fn free(name: &'static str, count: fn() -> usize, inputs: Inputs) -> Family {
    family(name, count, inputs, Relation::Free)
}

/// A family whose cases have one report each.
const fn same(name: &'static str, count: fn() -> usize, inputs: Inputs) -> Family {
    family(name, count, inputs, Relation::Same)
}

/// A family whose cases have a first report that no other is.
const fn different(name: &'static str, count: fn() -> usize, inputs: Inputs) -> Family {
    family(name, count, inputs, Relation::Different)
}

/// A family whose cases have one image, the same owners and one reader each.
const fn counted(name: &'static str, count: fn() -> usize, inputs: Inputs) -> Family {
    family(name, count, inputs, Relation::Counted)
}

const fn family(
    name: &'static str,
    count: fn() -> usize,
    inputs: Inputs,
    relation: Relation,
) -> Family {
    Family {
        name,
        count,
        inputs,
        relation,
    }
}

fn all_bytes(inputs: &[Input]) -> Vec<Vec<u8>> {
    inputs.iter().map(bytes).collect()
}

/// The same runs, often by other owners and for other readers.
fn owned_bytes(inputs: Vec<Input>) -> Vec<Vec<u8>> {
    all_bytes(&readers::owned_each(inputs))
}

fn all_stops() -> &'static [Vec<Input>] {
    static ALL: LazyLock<Vec<Vec<Input>>> = LazyLock::new(counts::stops);
    &ALL
}

fn all_straight() -> &'static [Vec<Input>] {
    static ALL: LazyLock<Vec<Vec<Input>>> = LazyLock::new(counts::straight);
    &ALL
}

/// The cases of a word that is hidden, and of one that is not.
fn all_words(hidden: bool) -> &'static [usize] {
    static ALL: LazyLock<[Vec<usize>; 2]> =
        LazyLock::new(|| [false, true].map(owner_pairs::word_cases));
    &ALL[usize::from(hidden)]
}

fn all_refused() -> &'static [Vec<u8>] {
    static ALL: LazyLock<Vec<Vec<u8>>> =
        LazyLock::new(|| unique([refused::bounds(), refused::companies()].concat()));
    &ALL
}

fn all_lengths() -> &'static [Vec<u8>] {
    static ALL: LazyLock<Vec<Vec<u8>>> = LazyLock::new(|| unique(refused::lengths()));
    &ALL
}

/// Each input once: inputs that are cut before they differ are the same.
fn unique(inputs: Vec<Vec<u8>>) -> Vec<Vec<u8>> {
    let mut seen = HashSet::new();
    let is_new = |input: &Vec<u8>| seen.insert(input.clone());
    inputs.into_iter().filter(is_new).collect()
}
