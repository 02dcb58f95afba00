//! Guarded runs that meet something hidden, end, or change what they come to,
//! around the ends of stretches of 256 instructions.

use crate::countdowns::{self, bound, bound_of, countdown, Body, Out};
use crate::countdowns::{BOUNDS, IDLE_WORD, LOOP, OUT, OUTS};
use crate::programs::{HALT, IDLE, JUMP};
use crate::random::Random;
use crate::report::guarded::Input;
use crate::report::inputs::examples::input;
use crate::report::inputs::{pairs, programs, readers};
use crate::sizes::BREAKPOINTS;

/// More than any of these runs begins before its end.
const AMPLE: u64 = 5_000;
/// A hidden word that the bodies leave alone, and one that they move.
pub const HIDDEN: u16 = countdowns::VALUES + 4;
const MOVED: u16 = countdowns::VALUES;

// -- bodies -----------------------------------------------------------------

/// A mark through registers and a word; R9 and the word are open again at the
/// turn's end, RA to RD are hidden. Two words have digits that they do not use.
const MOVING: Body = &[
    0x3988, 0x2EA9, 0x6BA3, 0xCCBA, 0x75CB, 0x8C01, 0x4C89, 0x3D89, 0x1905, 0x4989,
];

/// Four words change places, of which one is hidden, and what the first of them
/// held goes on from R8 to RD: where the marks are tells the number of turns.
const ROTATING: Body = &[
    0x3388, 0x3489, 0x358A, 0x368B, 0x4389, 0x448A, 0x458B, 0x4688, 0x20DC, 0x20CB, 0x20BA, 0x20A9,
    0x2098, 0x2083,
];

/// R9 is hidden, and so is a word. RA is R9 cleared, which opens the word, and
/// then R9 is cleared; jumps on both go to the next word either way.
const CLEARING: Body = &[
    0x3988, 0x498A, 0xCA99, 0xDA24, 0x4A8A, 0x3D8A, 0x9910, 0xD928,
];

pub const BODIES: [Body; 4] = [MOVING, ROTATING, countdowns::SWEEPING, CLEARING];

// -- chosen ends ------------------------------------------------------------

/// What a countdown comes to, and the marks that are there besides.
pub struct Met {
    pub out: Out,
    marked: Vec<u8>,
}

/// Those of the plain runs, ten with something hidden, and four with a register
/// that is cleared or nearly so.
pub const CLEARED: usize = OUTS + 10;
pub const MEETINGS: usize = CLEARED + 4;

pub fn met(number: usize, body: &[u16]) -> Met {
    match number {
        0..OUTS => Met {
            out: countdowns::out(number, body),
            marked: Vec::new(),
        },
        OUTS..CLEARED => hidden(number - OUTS, body),
        _ => cleared(number - CLEARED),
    }
}

/// LOAD [yz] of the hidden word that the bodies leave alone.
fn load(register: u16) -> u16 {
    0x3000 | register << 8 | HIDDEN
}

/// Hidden words that are come to, hidden tests of jumps, and marks that a store
/// sets or takes away right before.
fn hidden(number: usize, body: &[u16]) -> Met {
    let (over, turn) = (OUT + 2, body.len());
    let (words, more, marked) = match number {
        0 => (vec![0xEABC], 0, vec![OUT]),
        // A jump on what is hidden, on R0 where it is, and one that tells nothing.
        1 => (vec![load(9), 0xD900 | (OUT + 3), HALT, HALT], 1, vec![]),
        2 => (vec![load(0), 0xD300 | (OUT + 3), HALT, HALT], 1, vec![]),
        3 => (vec![load(0), JUMP | (OUT + 3), 0, HALT], 3, vec![]),
        // Some of the bodies have hidden RD.
        4 => (vec![0xDD00 | (OUT + 2), IDLE, HALT], 0, vec![]),
        5 => (vec![load(9), 0x4900 | over, HALT], 2, vec![]),
        6 => (
            vec![0x3300 | IDLE_WORD, 0x4300 | over, HALT, HALT],
            4,
            vec![over],
        ),
        // Back into the loop: its last word, its count or its first word is hidden.
        7 => (countdowns::over_jump_back(load(3), body), turn + 5, vec![]),
        8 => (vec![load(9), 0x6119, JUMP | LOOP], turn + 4, vec![]),
        _ => (vec![load(9), 0x4900 | LOOP, JUMP | LOOP], 3, vec![]),
    };
    coming_to(words, more, marked)
}

/// Jumps on R9 that was cleared, on R2 where R0 was, and on R9 that was not; then
/// a cleared register over a hidden word, which is no instruction from then on.
fn cleared(number: usize) -> Met {
    let (jump, over) = (0xD900 | (OUT + 4), OUT + 3);
    match number {
        0 => coming_to(vec![load(9), 0xC999, jump, 0, HALT], 4, vec![]),
        1 => coming_to(vec![load(0), 0x90FF, 0xD200, HALT], 4, vec![]),
        2 => coming_to(vec![load(9), 0x890F, jump, HALT, HALT], 2, vec![]),
        _ => coming_to(vec![load(9), 0xC999, 0x4900 | over, HALT], 4, vec![over]),
    }
}

/// Words without a breakpoint, and the addresses that are marked.
fn coming_to(words: Vec<u16>, more: usize, marked: Vec<u16>) -> Met {
    Met {
        out: Out {
            words,
            more,
            breakpoint: None,
        },
        marked: marked.into_iter().map(|address| address as u8).collect(),
    }
}

pub const END_CASES: usize = BOUNDS * MEETINGS * BODIES.len();

/// One program that ends at a bound, with 0, 1 and 256 breakpoints, and with
/// budgets around its end; often with other owners than marks have.
pub fn ends(number: usize) -> Vec<Input> {
    let (begun, rest) = bound_of(number);
    let body = BODIES[rest % BODIES.len()];
    let met = met(rest / BODIES.len(), body);
    let plain = meeting(begun, body, &met);
    let breakpoints = countdowns::breakpoint_lists(&met.out, number);
    let by_breakpoints = breakpoints.map(|breakpoints| Input {
        breakpoints,
        ..plain.clone()
    });
    let begun = begun as u64;
    let by_budgets = [begun - 1, begun, begun + 1].map(|budget| Input {
        budget,
        ..plain.clone()
    });
    let case = by_breakpoints.into_iter().chain(by_budgets).collect();
    readers::owned_case(number, case)
}

/// A program that has begun so many instructions at its end.
pub fn meeting(begun: usize, body: &[u16], met: &Met) -> Input {
    let image = countdown(begun - met.out.more, body, &met.out.words);
    let marked = [&met.marked[..], &[HIDDEN as u8, MOVED as u8]].concat();
    input(&image, &marked, AMPLE)
}

// -- by chance --------------------------------------------------------------

pub const RANDOM_CASES: usize = 3_000;

/// A loop by chance over hidden and open words, which ends at a bound in any
/// way or spends its budget around it; and the same with other hidden words.
pub fn any(number: usize) -> Vec<Input> {
    let mut random = Random::new(0x57E7_C400_0000 + number as u64);
    let random = &mut random;
    let begun = bound(random.below(BOUNDS));
    let body = turn(random);
    let met = met(random.below(MEETINGS), &body);
    let mut input = meeting(begun, &body, &met);
    for owners in &mut input.owners[MOVED.into()..HIDDEN.into()] {
        *owners = random.below(2) as u8;
    }
    input = readers::owned(random, input);
    if random.below(2) == 0 {
        input.budget = begun as u64 + 3 - random.below(7) as u64;
    }
    let place = random.below(BREAKPOINTS);
    let [_, one, many] = countdowns::breakpoint_lists(&met.out, place);
    input.breakpoints = match random.below(4) {
        0 => one,
        1 => many,
        2 => vec![random.byte()],
        _ => Vec::new(),
    };
    let other = pairs::with_other_hidden(random, &input);
    vec![input, other]
}

/// A turn by chance. In every second one a hidden word is then loaded and
/// cleared, and a jump on it goes to the next word either way.
fn turn(random: &mut Random) -> Vec<u16> {
    let mut body = programs::turn(random, 8, MOVED.into());
    if random.below(2) == 0 {
        let register = 4 + random.below(4) as u16;
        body.extend([load(register), programs::clearing(random, register)]);
        let next = LOOP + body.len() as u16 + 1;
        body.push(JUMP | register << 8 | next);
    }
    body
}
