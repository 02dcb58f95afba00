//! Scripts that push records up to the limit of the store and past it, and undo
//! them all.

use crate::calls::commands::{self, Command};
use crate::calls::program::LARGEST_STORE;
use crate::calls::scripts::draft::Draft;
use crate::calls::snapshots::RECORD;
use crate::programs::{self, HALT, JUMP};
use crate::random::Random;

/// Stores around none, one and a few records, and around the largest.
const STORES: [usize; 19] = [
    0,
    1,
    RECORD - 1,
    RECORD,
    RECORD + 1,
    2 * RECORD - 1,
    2 * RECORD,
    2 * RECORD + 1,
    3 * RECORD - 1,
    3 * RECORD,
    3 * RECORD + 1,
    5 * RECORD - 1,
    5 * RECORD,
    5 * RECORD + 1,
    20 * RECORD - 1,
    20 * RECORD,
    LARGEST_RECORDS * RECORD - 1,
    LARGEST_RECORDS * RECORD,
    LARGEST_STORE,
];

/// How many records the largest store holds.
const LARGEST_RECORDS: usize = LARGEST_STORE / RECORD;

/// What stands between two pushes.
const WAYS: usize = 6;

pub const LIMIT_SCRIPTS: usize = STORES.len() * WAYS;

/// Pushes past the limit, and undoes past the empty history, twice.
pub fn limits(number: usize) -> Vec<u8> {
    let store = STORES[number % STORES.len()];
    let way = number / STORES.len();
    let mut random = Random::new(0x0011_3175 + number as u64);
    let mut draft = Draft::started(store);
    draft.add(Command::Load(programs::any(&mut random)));
    for _ in 0..2 {
        for _ in 0..draft.model().history().limit() + 3 {
            draft.add(Command::Push);
            dump_small(&mut draft);
            draft.add_all(between(&mut random, way));
        }
        draft.add(Command::Dump);
        for _ in 0..draft.model().history().limit() + 2 {
            draft.add(Command::Undo);
            dump_small(&mut draft);
        }
        draft.add(Command::Dump);
    }
    draft.bytes()
}

/// A large store is dumped only now and then.
fn dump_small(draft: &mut Draft) {
    if draft.model().history().store().len() < 3_000 {
        draft.add(Command::Dump);
    }
}

/// Work between two pushes, of which each leaves another state.
fn between(random: &mut Random, way: usize) -> Vec<Command> {
    match way {
        0 => vec![Command::Micro],
        1 => vec![Command::Step],
        2 => vec![Command::Run(
            1 + random.below(9) as u64,
            vec![random.byte()],
        )],
        3 => vec![
            Command::Load(programs::any(random)),
            Command::Step,
            Command::Micro,
        ],
        // The instruction and the run again, by the direct engine.
        _ => commands::by_direct_engine(&between(random, way - 3)),
    }
}

/// Document 01's example 16: a store that is a byte short is refused 7, one that
/// is not holds one record.
pub fn example_16(number: usize) -> Vec<u8> {
    let mut draft = Draft::started([RECORD - 1, RECORD][number]);
    draft.add_all([
        Command::Load(vec![0x1105, JUMP]),
        Command::Push,
        Command::Step,
        Command::Push,
        Command::Step,
        Command::Dump,
        Command::Undo,
        Command::Dump,
        Command::Undo,
        Command::Dump,
    ]);
    draft.bytes()
}

/// What starts a machine anew, and what it does with the history: `reset` and
/// `load_image` keep it, `clear`, `clear_history` and a new machine do not, and
/// none of them touches the store.
pub fn anew(number: usize) -> Vec<u8> {
    let anew = [
        Command::New,
        Command::Load(vec![0x1205, 0x4221, HALT]),
        Command::Load(Vec::new()),
        Command::Reset,
        Command::Clear,
        Command::ClearHistory,
    ];
    let mut draft = Draft::started(3 * RECORD + 5);
    let stores = (0x4130..0x4140).chain([HALT]).collect();
    draft.add_all([
        Command::Load(vec![0x1177, 0x4120, 0x4121, HALT]),
        Command::Step,
    ]);
    draft.add_all([Command::Push, Command::Step, Command::Push, Command::Micro]);
    draft.add_all([anew[number % anew.len()].clone(), Command::Dump]);
    draft.add_all([Command::Undo, Command::Dump, Command::Step, Command::Push]);
    draft.add_all([
        Command::Dump,
        Command::Load(stores),
        Command::Run(9, vec![]),
    ]);
    draft.add_all([
        anew[number / anew.len()].clone(),
        Command::Undo,
        Command::Dump,
    ]);
    draft.add_all([Command::Undo, Command::Dump, Command::Undo, Command::Dump]);
    draft.bytes()
}

pub const ANEW_SCRIPTS: usize = 36;
