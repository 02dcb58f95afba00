//! Long runs of both engines, whose ends, changes and refusals are around the
//! ends of stretches of 256 instructions.

use crate::calls::commands::{by_both_engines, field, run, set, Command};
use crate::calls::runs::{counters, FULL};
use crate::calls::scripts::draft::Draft;
use crate::countdowns::{self, bound, bound_of, countdown, out, BODIES, BOUNDS, ENDLESS, OUTS};
use crate::programs::HALT;
use crate::vm_limited::Machine;

/// More than any of these programs begins before its end.
const AMPLE: u64 = 5_000;

/// The calls on a new machine with the image, by both engines, and dumps.
fn by_both(draft: &mut Draft, image: &[u16], calls: &[Command]) {
    for calls in by_both_engines(calls.to_vec()) {
        draft.add_all([Command::New, Command::Load(image.to_vec())]);
        draft.add_all(calls);
        draft.add(Command::Dump);
    }
}

// -- budgets ----------------------------------------------------------------

/// Every budget up to here, and some around later bounds.
const SMALL: usize = 301;
const LARGE: [usize; 3] = [509, 765, 1_021];
const AROUND: usize = 8;
const BUDGETS: usize = SMALL + LARGE.len() * AROUND;

pub const BUDGET_SCRIPTS: usize = BODIES.len() * BUDGETS;

/// A run that spends its budget; then the machine is made to go on, with the
/// fault that this left.
pub fn budgets(number: usize) -> Vec<u8> {
    let budget = budget(number % BUDGETS) as u64;
    let body = BODIES[number / BUDGETS];
    let image = countdown(ENDLESS, body, &[HALT]);
    let on = |call| [run(budget), Command::Dump, set(field::HALTED, 0), call];
    let mut draft = Draft::started(0);
    by_both(&mut draft, &image, &on(Command::Step));
    by_both(&mut draft, &image, &on(run(budget % 300)));
    draft.bytes()
}

fn budget(number: usize) -> usize {
    match number.checked_sub(SMALL) {
        None => number,
        Some(rest) => LARGE[rest / AROUND] + rest % AROUND,
    }
}

// -- ends -------------------------------------------------------------------

pub const END_SCRIPTS: usize = BOUNDS * BODIES.len() * OUTS;

/// A run that ends by itself, or has its coming words changed, at a bound.
pub fn ends(number: usize) -> Vec<u8> {
    let (begun, rest) = bound_of(number);
    let body = BODIES[rest % BODIES.len()];
    let out = out(rest / BODIES.len(), body);
    let image = countdown(begun - out.more, body, &out.words);
    let mut draft = Draft::started(0);
    for breakpoints in countdowns::breakpoint_lists(&out, number) {
        by_both(&mut draft, &image, &[Command::Run(AMPLE, breakpoints)]);
    }
    draft.bytes()
}

// -- begun instructions -----------------------------------------------------

/// The first instruction has seven ticks: after the last of them the machine is
/// at the next instruction.
const TICKS: usize = 7;
const BEGUN_BODIES: [countdowns::Body; 2] = [countdowns::RECKONING, countdowns::SWAPPING];

pub const BEGUN_SCRIPTS: usize = TICKS * BOUNDS * BEGUN_BODIES.len();

/// A run that begins inside an instruction and ends at a bound, by HALT, by an
/// unknown word, by breakpoints or by its budget.
pub fn begun(number: usize) -> Vec<u8> {
    let ticks = vec![Command::Micro; 1 + number % TICKS];
    let (begun, rest) = bound_of(number / TICKS);
    let body = BEGUN_BODIES[rest];
    let mut draft = Draft::started(0);
    for kind in 0..4 {
        let out = out(kind, body);
        let image = countdown(begun - out.more, body, &out.words);
        let [_, breakpoint, _] = countdowns::breakpoint_lists(&out, number);
        let calls = [&ticks[..], &[Command::Run(AMPLE, breakpoint)]].concat();
        by_both(&mut draft, &image, &calls);
    }
    let image = countdown(ENDLESS, body, &[HALT]);
    let spent = [&ticks[..], &[run(begun as u64)]].concat();
    by_both(&mut draft, &image, &spent);
    draft.bytes()
}

// -- full counters ----------------------------------------------------------

/// Distances from the largest count: small ones, and so many instructions.
const NEAR: usize = 21;
pub const DISTANCES: usize = NEAR + BOUNDS;
const FULL_BODIES: [countdowns::Body; 3] = [
    countdowns::STORING,
    countdowns::SWAPPING,
    countdowns::SWEEPING,
];

pub const FULL_SCRIPTS: usize = field::COUNTERS.len() * DISTANCES * FULL_BODIES.len();

/// A counter comes over the largest count inside a run, which is refused and
/// keeps what it has completed, or just ends by its budget; and a call more.
pub fn full(number: usize) -> Vec<u8> {
    let distance = number % DISTANCES;
    let rest = number / DISTANCES;
    let at = rest % field::COUNTERS.len();
    let image = countdown(ENDLESS, FULL_BODIES[rest / field::COUNTERS.len()], &[HALT]);
    let near = match distance.checked_sub(NEAR) {
        None => distance as u64,
        Some(number) => counted(&image, bound(number))[at],
    };
    let start = set(field::COUNTERS[at], FULL - near);
    let mut draft = Draft::started(0);
    for budget in budgets_around(&image, at, near) {
        let calls = [start.clone(), run(budget), Command::Dump, Command::Step];
        by_both(&mut draft, &image, &calls);
    }
    draft.bytes()
}

/// What the four counters count in so many instructions.
fn counted(image: &[u16], instructions: usize) -> [u64; 4] {
    let mut machine = Machine::new();
    machine.load_image(image);
    machine.run(instructions as u64, &[]);
    counters(&machine)
}

/// One that the refusal comes before, and the two around the instruction that
/// brings the counter over the largest: the budget is asked for first.
fn budgets_around(image: &[u16], counter: usize, near: u64) -> [u64; 3] {
    let mut machine = Machine::new();
    machine.load_image(image);
    while counters(&machine)[counter] <= near {
        machine.step_instruction();
    }
    [2_000, machine.instructions, machine.instructions + 1]
}
