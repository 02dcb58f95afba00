//! Loops that move the number of hidden words up and down, within stretches of 256
//! instructions and across them: document 02, Change 6.

use crate::countdowns::{self, bound, bound_of, Body, BOUNDS, OUTS};
use crate::programs::JUMP;
use crate::report::guarded::Input;
use crate::report::inputs::examples::{input, with_word_10};
use crate::report::inputs::random::with_budgets;
use crate::report::inputs::readers;
use crate::report::inputs::stretches::{meeting, met, HIDDEN, MEETINGS};
use crate::sizes::{LARGEST_BUDGET, MEMORY_WORDS};

/// A value that no program names, to see whether it is shown.
const VALUE: u16 = 0x5EC7;

// -- through memory ---------------------------------------------------------

pub const SWEEPS: usize = 6;

/// A loop whose store has an address that is one higher in each turn, up to the last
/// one; then the store's next register is stored over the loop's begin.
pub fn sweep(number: usize) -> Input {
    // What R1 and R2 are; then the words that are hidden from the start.
    let (registers, hidden): ([u16; 2], _) = match number {
        // One word more is hidden in each turn, the loop's first word last.
        0 => ([0x31FF, 0x32FF], 0xFF),
        // The loop's first word is opened instead, and is no instruction.
        1 => ([0x31FF, 0x1200], 0xFF),
        // One word more is opened, down to none; at the end some are hidden again.
        2 => ([0x1100, 0x1200], 0x08),
        3 => ([0x1100, 0x32FF], 0x08),
        // Half of memory is hidden already, which is hidden again or opened.
        4 => ([0x31FF, 0x32FF], 0x80),
        _ => ([0x1100, 0x1205], 0x80),
    };
    let code = [0x1401, 0x3306, 0x6334, 0x4306, 0x4107, JUMP | 3];
    let mut image = [&registers[..], &code].concat();
    image.resize(MEMORY_WORDS, VALUE);
    let marked: Vec<u8> = (hidden..=0xFF).collect();
    input(&image, &marked, LARGEST_BUDGET)
}

/// The budgets of one loop, in parts: around each multiple of 256, and many others.
const PARTS: usize = 5;
pub const SWEEP_CASES: usize = SWEEPS * PARTS;

pub fn sweeps(number: usize) -> Vec<Input> {
    let part = number / SWEEPS;
    let around = BOUNDS / (PARTS - 1);
    let budgets: Vec<usize> = match part {
        0..4 => (part * around..(part + 1) * around).map(bound).collect(),
        _ => (0..1_300).step_by(37).collect(),
    };
    let budgets = budgets.into_iter().map(|budget| budget as u64);
    readers::owned_case(number, with_budgets(&sweep(number % SWEEPS), budgets))
}

// -- every stop at every bound ----------------------------------------------

/// One word more is hidden in each turn, from 90 on.
const HIDING: Body = &[0x1401, 0x3900 | HIDDEN, 0x3325, 0x6334, 0x4325, 0x498F];

/// Four words are hidden and opened again, not in the order in which they were hidden,
/// and some of them twice.
const BREATHING: Body = &[
    0x3900 | HIDDEN,
    0x4990,
    0x4991,
    0x4991,
    0x4390,
    0x4992,
    0x3390,
    0x4390,
    0x4391,
    0x3D92,
    0x4392,
    0x4392,
    0x4993,
    0x4393,
];

/// Two words change places, of which one is hidden; what they held goes to others, so
/// that more are hidden after each second turn.
const TOGGLING: Body = &[0x3388, 0x3489, 0x4389, 0x4488, 0x43A0, 0x44A1, 0x43A2];

/// From 90 on all is hidden, and one word more is opened in each turn.
const OPENING: Body = countdowns::SWEEPING;

const BODIES: [Body; 4] = [HIDING, BREATHING, TOGGLING, OPENING];

/// Each body twice with every bound; the stops take turns.
pub const STRETCH_CASES: usize = 2 * BODIES.len() * BOUNDS;

/// One program that ends at a bound, with budgets around its end, with an ample one, and
/// with a breakpoint.
pub fn stretches(number: usize) -> Vec<Input> {
    let (begun, rest) = bound_of(number);
    let body = BODIES[rest % BODIES.len()];
    let met = met((number + 11 * (rest / BODIES.len())) % MEETINGS, body);
    let mut plain = meeting(begun, body, &met);
    if body == OPENING {
        plain.owners[0x90..].fill(1);
    }
    let begun = begun as u64;
    let budgets = [begun - 1, begun, begun + 1, plain.budget];
    let [_, breakpoints, _] = countdowns::breakpoint_lists(&met.out, number);
    let stopped = Input {
        breakpoints,
        ..plain.clone()
    };
    let case = [with_budgets(&plain, budgets), vec![stopped]].concat();
    readers::owned_case(number, case)
}

// -- the largest budgets ----------------------------------------------------

/// The upper half of memory is hidden word by word, and opened word by word, again and
/// again: the store's address goes on from 80 behind FF, and its register is R1, which
/// is hidden, and R3, which is not, in turn. R1 is hidden where no word is, too.
pub fn tides(budget: u64) -> Input {
    let code = [
        0x31FF, 0x1401, 0x3520, 0x3621, // R1 hidden, 1, and what is kept and set below
        0x3309, 0x6334, 0xA335, 0xB336, 0x4309, // the store's next address
        0x43FF, 0xD004,
    ];
    let mut image = code.to_vec();
    image.resize(0x20, 0);
    image.extend([0x43FF, 0x4180]);
    input(&image, &[0xFF], budget)
}

/// Hidden, hidden, opened, opened; and the one hidden word opened and hidden again.
fn ripples() -> [Input; 2] {
    let few = [0x3110, 0x4111, 0x4112, 0x4212, 0x4211, JUMP];
    let one = [0x3110, 0x4210, 0x4110, 0x4110, JUMP | 1];
    [&few[..], &one].map(|code| input(&with_word_10(code, VALUE), &[0x10], LARGEST_BUDGET))
}

/// Runs up to the largest budget, which they spend or not.
pub fn long() -> Vec<Vec<Input>> {
    let most = LARGEST_BUDGET;
    let budgets = [65_536, most - 1, most];
    let [few, one] = ripples();
    let mut cases: Vec<Vec<Input>> = [tides(most), few, one]
        .iter()
        .map(|input| with_budgets(input, budgets))
        .collect();
    // HALT, an unknown word, a hidden word and a hidden test.
    for number in [0, 1, OUTS, OUTS + 1] {
        let met = met(number, BREATHING);
        let input = meeting(most as usize - 1, BREATHING, &met);
        cases.push(with_budgets(&input, [most - 2, most]));
    }
    let cases = cases.into_iter().enumerate();
    cases
        .map(|(number, case)| readers::owned_case(number, case))
        .collect()
}
