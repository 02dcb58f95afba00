//! Scripts on machines whose counters are nearly full, or over it.

use crate::calls::commands::{by_both_engines, field, run, set, Command};
use crate::calls::runs::FULL;
use crate::calls::scripts::draft::Draft;
use crate::calls::scripts::edges::STORE;
use crate::programs::{HALT, JUMP};

/// Counts around the largest that refusal 9 lets go on: an instruction adds up
/// to seven.
const COUNTS: [u64; 13] = [
    FULL - 15,
    FULL - 8,
    FULL - 7,
    FULL - 6,
    FULL - 5,
    FULL - 4,
    FULL - 3,
    FULL - 2,
    FULL - 1,
    FULL,
    FULL + 1,
    FULL + 2,
    u64::MAX,
];

/// Instructions of seven and of five ticks, HALT, with digits that it does not use
/// and without, and an unknown word.
const STARTS: [[u16; 3]; 5] = [
    [0x4120, 0x4121, HALT],
    [0x3120, 0x3121, HALT],
    [0x6000, 0x6000, JUMP],
    [0xEABC, HALT, HALT],
    [0x5000, 0x5000, 0x5000],
];

pub const COUNTER_SCRIPTS: usize = field::COUNTERS.len() * COUNTS.len() * STARTS.len();

/// Each counter around the largest count that refusal 9 lets go on.
pub fn counters(number: usize) -> Vec<u8> {
    let counter = field::COUNTERS[number % field::COUNTERS.len()];
    let rest = number / field::COUNTERS.len();
    let count = COUNTS[rest % COUNTS.len()];
    let words = STARTS[rest / COUNTS.len() % STARTS.len()].to_vec();
    let mut draft = Draft::started(STORE);
    for calls in counting_calls() {
        for halted in [0, 1] {
            draft.add_all([
                Command::New,
                Command::Load(words.clone()),
                set(counter, count),
                set(field::HALTED, halted),
            ]);
            draft.add_all(calls.iter().cloned());
            draft.add(Command::Dump);
        }
    }
    draft.bytes()
}

/// Ticks, instructions and runs, alone and in a row, by both engines.
fn counting_calls() -> Vec<Vec<Command>> {
    let lists = [
        vec![Command::Micro; 10],
        vec![Command::Step; 3],
        vec![Command::Micro, Command::Step, Command::Step],
        vec![run(0)],
        vec![run(1), run(1)],
        vec![run(2)],
        vec![run(3)],
        vec![run(40)],
        vec![Command::Run(40, vec![0, 1])],
        vec![Command::Run(40, vec![2]), run(2)],
        vec![Command::Micro, Command::Run(40, vec![0])],
        vec![Command::Push, Command::Step, Command::Undo, Command::Step],
        vec![Command::Reset, Command::Step],
        // One engine goes on where the other was refused or stopped.
        vec![Command::Direct, Command::Step, run(1), Command::Direct],
    ];
    lists.map(by_both_engines).concat()
}
