//! Scripts that put every call to control units of every kind, and that set
//! every field; and what other scripts on single states are made of.

use crate::calls::commands::{self, field, run, set, Command};
use crate::calls::scripts::draft::Draft;
use crate::calls::snapshots::RECORD;
use crate::programs::HALT;
use crate::sizes::{MEMORY_WORDS, REGISTERS, TRACE_RECORDS};

/// Two records and a byte.
pub const STORE: usize = 2 * RECORD + 1;

/// Ticks and numbers of execute ticks around what there is.
const TICKS: [u8; 9] = [0, 1, 2, 3, 4, 5, 6, 7, 255];
const EXECUTE_TICKS: [u8; 6] = [0, 1, 2, 3, 4, 255];
const OPCODES: usize = 16;

/// NEGATE with digits that it does not use, a store, a load, a sum, a jump that is
/// not taken and HALT.
const PROGRAM: [u16; 7] = [0x1107, 0x7F1A, 0x4120, 0x3220, 0x6312, 0xD120, HALT];

/// Every call, `run` in a few ways, and the direct engine's beside their own.
fn calls() -> Vec<Command> {
    let calls = [
        Command::New,
        Command::Load(vec![0x1105, HALT]),
        Command::Reset,
        Command::Clear,
        Command::Micro,
        Command::Step,
        run(0),
        run(2),
        // Where PC is behind `begun`, and where it comes by in other programs.
        Command::Run(9, vec![3, 2]),
        Command::Push,
        Command::Undo,
        Command::ClearHistory,
    ];
    let by_both = calls.map(|call| commands::by_both_engines(vec![call]).concat());
    by_both.concat()
}

/// Each call on a machine of its own in that state, and a dump behind it.
pub fn each_call(draft: &mut Draft, state: &[Command]) {
    for call in calls() {
        draft.add(Command::New);
        draft.add_all(state.iter().cloned());
        draft.add(call);
        draft.add(Command::Dump);
    }
}

/// A program that has begun, and a record of it.
pub fn begun() -> Vec<Command> {
    vec![
        Command::Load(PROGRAM.to_vec()),
        Command::Step,
        Command::Step,
        Command::Step,
        Command::Push,
        Command::Micro,
    ]
}

/// A state, and what more leads to it.
pub fn with(mut state: Vec<Command>, more: impl IntoIterator<Item = Command>) -> Vec<Command> {
    state.extend(more);
    state
}

/// How many scripts `ticks` has: one for each tick, each number of execute
/// ticks and each opcode.
pub const TICK_SCRIPTS: usize = TICKS.len() * EXECUTE_TICKS.len() * OPCODES;

/// Running and halted machines with any tick, execute ticks and opcode.
pub fn ticks(number: usize) -> Vec<u8> {
    let (tick, execute_ticks, ir) = tick_case(number);
    let mut draft = Draft::started(STORE);
    for halted in [0, 1] {
        let sets = [
            set(field::TICK, tick.into()),
            set(field::EXECUTE_TICKS, execute_ticks.into()),
            set(field::IR, ir.into()),
            set(field::HALTED, halted),
        ];
        each_call(&mut draft, &with(begun(), sets));
    }
    draft.bytes()
}

/// A tick, a number of execute ticks, and a word of an opcode.
pub fn tick_case(number: usize) -> (u8, u8, u16) {
    let tick = TICKS[number % TICKS.len()];
    let rest = number / TICKS.len();
    let execute_ticks = EXECUTE_TICKS[rest % EXECUTE_TICKS.len()];
    let opcode = (rest / EXECUTE_TICKS.len() % OPCODES) as u16;
    (tick, execute_ticks, opcode << 12 | 0x0121)
}

/// Every field, and numbers that are none, with values and indices over their
/// ranges.
pub const FIELDS: [u8; 25] = [
    0x00, 0x01, 0x02, 0x03, 0x04, 0x05, 0x06, 0x07, 0x08, 0x09, 0x0A, 0x0B, 0x0C, 0x0D, 0x0E, 0x0F,
    0x10, 0x11, 0x12, 0x13, 0x14, 0x15, 0x20, 0x80, 0xFF,
];

/// Around none, and around as many registers, words and records as there are.
fn indices() -> impl Iterator<Item = u16> {
    let bounds = [REGISTERS, MEMORY_WORDS, TRACE_RECORDS].map(|most| most as u16);
    let around = bounds.into_iter().flat_map(|most| most - 1..=most + 1);
    [0, 1].into_iter().chain(around).chain([65_535])
}

pub fn sets(number: usize) -> Vec<u8> {
    let mut draft = Draft::started(RECORD);
    for value in [
        0,
        1,
        2,
        3,
        255,
        256,
        257,
        65_535,
        65_536,
        65_537,
        1 << 32,
        u64::MAX,
    ] {
        for index in indices() {
            draft.add(Command::New);
            draft.add_all(begun());
            draft.add(Command::Set(FIELDS[number], index, value));
            draft.add_all([Command::Dump, Command::Micro, Command::Direct]);
            draft.add(Command::Undo);
        }
    }
    draft.bytes()
}
