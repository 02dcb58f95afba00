//! Guarded runs by chance, and runs with every budget up to their end. Each can
//! be made alone, from its number.

use crate::random::Random;
use crate::report::guarded::{self, Input, Run, Stop};
use crate::report::inputs::programs;
use crate::sizes::{BREAKPOINTS, LARGEST_BUDGET};

pub const RANDOM_INPUTS: usize = 20_000;
pub const BUDGET_PROGRAMS: usize = 3_000;

/// Enough instructions to see how a program ends.
const TRIED: u64 = 400;
/// The most instructions of a run that every budget is tried on.
const SHORT: u64 = 40;

pub fn any(number: usize) -> Input {
    by(&mut Random::new(0x6A5D_0000_0000 + number as u64))
}

/// An input that is served.
pub fn by(random: &mut Random) -> Input {
    let program = programs::any(random);
    bounded(random, program)
}

/// A program with breakpoints and a budget, often where it comes by and ends.
pub fn bounded(random: &mut Random, mut input: Input) -> Input {
    let tried = with_budget(&input, TRIED);
    input.breakpoints = breakpoints(random, &tried);
    let tried = with_budget(&input, TRIED);
    input.budget = budget(random, &tried);
    input
}

fn with_budget(input: &Input, budget: u64) -> Run {
    let input = Input {
        budget,
        ..input.clone()
    };
    guarded::run(&input).expect("what is made here is served")
}

/// Small ones, those around the run's end, and rarely the largest, where the
/// run is known to end. A wrong port may not end there, but spends its budget.
fn budget(random: &mut Random, tried: &Run) -> u64 {
    match random.below(16) {
        0 => 0,
        1..=3 => random.below(8) as u64,
        4..=6 => tried.executed.saturating_sub(1),
        7..=9 => tried.executed,
        10 => tried.executed + 1,
        11 if tried.stop != Stop::Budget => LARGEST_BUDGET - random.below(2) as u64,
        12 => random.below(TRIED as usize) as u64,
        _ => tried.executed + random.below(300) as u64,
    }
}

/// None, one, some with repeats, or all that are taken; often where the run
/// comes by.
fn breakpoints(random: &mut Random, tried: &Run) -> Vec<u8> {
    match random.below(16) {
        0..=7 => Vec::new(),
        8 => vec![address(random, tried)],
        9 => vec![0],
        10 => vec![address(random, tried); 1 + random.below(5)],
        11 | 12 => some(random, tried),
        13 => vec![address(random, tried); BREAKPOINTS],
        14 => (0..BREAKPOINTS).map(|_| random.byte() | 0x80).collect(),
        _ => (0..=255).map(|at: u8| at.wrapping_mul(37)).collect(),
    }
}

/// A few, some of them twice and not side by side.
fn some(random: &mut Random, tried: &Run) -> Vec<u8> {
    let mut some: Vec<u8> = (0..2 + random.below(6))
        .map(|_| address(random, tried))
        .collect();
    some.push(some[0]);
    some
}

/// An address of the trace, or any.
fn address(random: &mut Random, tried: &Run) -> u8 {
    let trace = &tried.machine.trace;
    match random.below(4) {
        0 => random.byte(),
        1 => tried.machine.pc,
        _ if trace.is_empty() => 0,
        _ => trace[random.below(trace.len())].address,
    }
}

/// One program with every budget from 0 to one past its end, or to 40 where it
/// has none: only a run that ends right behind LOAD [yz] or STORE shows MDR's
/// owners, and a run to HALT hides them.
pub fn every_budget(number: usize) -> Vec<Input> {
    let mut random = Random::new(0xB0D6_0000_0000 + number as u64);
    with_every_budget(&programs::any(&mut random), SHORT)
}

/// The input with every budget from 0 to one past its end, or past `most` where it
/// goes on for longer.
pub fn with_every_budget(input: &Input, most: u64) -> Vec<Input> {
    let end = with_budget(input, most).executed;
    with_budgets(input, 0..=end + 1)
}

/// The input with each of these budgets.
pub fn with_budgets(input: &Input, budgets: impl IntoIterator<Item = u64>) -> Vec<Input> {
    let budgets = budgets.into_iter();
    budgets
        .map(|budget| Input {
            budget,
            ..input.clone()
        })
        .collect()
}
