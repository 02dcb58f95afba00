//! The guarded run of document 01, section 5, for one reader (document 02, Change 7):
//! the tests' own model. The original makes every instruction; the owners, the stops and
//! the refusals are made here, from the documents' words.

use crate::report::owners::{hidden_from, Owners};
use crate::sizes::{BREAKPOINTS, LARGEST_BUDGET, MEMORY_WORDS};
use crate::vm::{Machine, RunStop};

/// What a guarded run is given.
#[derive(Clone, Debug, PartialEq, Eq)]
pub struct Input {
    pub image: Vec<u16>,
    /// The owner byte of each address.
    pub owners: Vec<u8>,
    pub budget: u64,
    pub breakpoints: Vec<u8>,
    /// The owners whose values the reader may see, one bit each.
    pub clearance: u8,
}

/// Why a guarded run ended; the numbers are the document's.
#[derive(Clone, Copy, Debug, PartialEq, Eq)]
pub enum Stop {
    Halted = 0,
    Breakpoint = 1,
    Fault = 2,
    Budget = 3,
    HiddenWord = 4,
    HiddenTest = 5,
}

/// What a guarded run comes to.
#[derive(Clone, Debug)]
pub struct Run {
    pub machine: Machine,
    pub owners: Owners,
    pub stop: Stop,
    /// The instructions begun.
    pub executed: u64,
}

/// The run, or the number of its refusal.
pub fn run(input: &Input) -> Result<Run, u8> {
    match refusal(input) {
        Some(number) => Err(number),
        None => Ok(checked(input, guarded(input, |_| {}))),
    }
}

/// How many words are hidden from the reader at the start of the run and after each
/// instruction that it begins, each time all of them counted; or the number of its
/// refusal.
pub fn hidden_counts(input: &Input) -> Result<Vec<usize>, u8> {
    if let Some(number) = refusal(input) {
        return Err(number);
    }
    let mut counts = Vec::new();
    guarded(input, |owners| {
        counts.push(owners.hidden_words(input.clearance))
    });
    Ok(counts)
}

// -- refusals ---------------------------------------------------------------

/// The first refusal that holds, in the order of section 1.
pub fn refusal(input: &Input) -> Option<u8> {
    let tests = [
        (1, is_long_image(input.image.len())),
        (2, is_other_list(&input.owners)),
        (3, are_many_breakpoints(input.breakpoints.len())),
        (4, is_large_budget(input.budget)),
    ];
    tests.iter().find(|test| test.1).map(|test| test.0)
}

/// Refusal 1.
pub fn is_long_image(words: usize) -> bool {
    words > MEMORY_WORDS
}

/// Refusal 2: only the length can be wrong, as every owner byte is lawful.
pub fn is_other_list(owners: &[u8]) -> bool {
    owners.len() != MEMORY_WORDS
}

/// Refusal 3.
pub fn are_many_breakpoints(count: usize) -> bool {
    count > BREAKPOINTS
}

/// Refusal 4.
pub fn is_large_budget(budget: u64) -> bool {
    budget > LARGEST_BUDGET
}

// -- the run ----------------------------------------------------------------

/// The run of an input that is not refused. `watch` is shown the owners at the
/// start and after each instruction.
fn guarded(input: &Input, mut watch: impl FnMut(&Owners)) -> Run {
    let mut machine = loaded(input);
    let mut owners = started(input);
    let mut executed = 0;
    watch(&owners);
    let stop = loop {
        if let Some(stop) = stop(input, &machine, &owners, executed) {
            break stop;
        }
        owners.follow(word_at_pc(&machine));
        machine.step_instruction();
        executed += 1;
        watch(&owners);
    };
    if stop == Stop::Budget {
        // A spent budget halts the machine, as the original does it.
        machine.run(0, &[]);
    }
    Run {
        machine,
        owners,
        stop,
        executed,
    }
}

/// A fresh machine with the image.
fn loaded(input: &Input) -> Machine {
    let mut machine = Machine::new();
    machine.load_image(&input.image);
    machine
}

fn started(input: &Input) -> Owners {
    Owners::at_start(std::array::from_fn(|address| input.owners[address]))
}

/// Why the run goes no further, in the order in which it is asked before each
/// instruction.
fn stop(input: &Input, machine: &Machine, owners: &Owners, executed: u64) -> Option<Stop> {
    if machine.halted {
        return Some(halted_stop(machine));
    }
    if executed > 0 && input.breakpoints.contains(&machine.pc) {
        return Some(Stop::Breakpoint);
    }
    if executed >= input.budget {
        return Some(Stop::Budget);
    }
    if hidden_from(owners.memory[usize::from(machine.pc)], input.clearance) {
        return Some(Stop::HiddenWord);
    }
    if owners.hide_the_test_of(word_at_pc(machine), input.clearance) {
        return Some(Stop::HiddenTest);
    }
    None
}

fn halted_stop(machine: &Machine) -> Stop {
    match machine.fault {
        Some(_) => Stop::Fault,
        None => Stop::Halted,
    }
}

fn word_at_pc(machine: &Machine) -> u16 {
    machine.memory[usize::from(machine.pc)]
}

// -- the original's say -----------------------------------------------------

/// Holds the machine to the original's: at stops 4 and 5 to the plain one after
/// as many instructions, else to the one that its own `run` leaves.
fn checked(input: &Input, run: Run) -> Run {
    let mut plain = loaded(input);
    match run.stop {
        Stop::HiddenWord | Stop::HiddenTest => {
            for _ in 0..run.executed {
                plain.step_instruction();
            }
            assert!(!plain.halted, "these stops do not halt");
        }
        _ => {
            let stop = plain.run(input.budget, &input.breakpoints);
            assert_eq!(stop, plain_stop(&run), "the original's stop");
        }
    }
    assert_same(&run.machine, &plain);
    run
}

/// The same stop as the original names it.
fn plain_stop(run: &Run) -> RunStop {
    match run.stop {
        Stop::Halted => RunStop::Halted,
        Stop::Breakpoint => RunStop::Breakpoint(run.machine.pc),
        Stop::Fault => RunStop::Fault,
        Stop::Budget => RunStop::Budget,
        Stop::HiddenWord | Stop::HiddenTest => unreachable!("the original has no such stop"),
    }
}

/// Every public field. A snapshot has all that are not named here.
fn assert_same(machine: &Machine, plain: &Machine) {
    assert_eq!(machine.snapshot(), plain.snapshot());
    assert_eq!(machine.bus_reads, plain.bus_reads);
    assert_eq!(machine.bus_writes, plain.bus_writes);
    assert_eq!(machine.last_transfer, plain.last_transfer);
    assert_eq!(machine.last_alu, plain.last_alu);
    assert_eq!(machine.trace, plain.trace);
    assert_eq!(machine.touched, plain.touched);
    assert_eq!(machine.image(), plain.image());
    assert_eq!(machine.history_len(), plain.history_len());
}
