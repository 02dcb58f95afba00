//! The machine's calls, each many times on a machine that was just loaded. The
//! port's calls check the machine's state each time; the original's check
//! nothing.

use crate::{medians, timing};
use oracle::vm::Machine;
use oracle::{images, sizes};
use std::hint::black_box;

/// Rounds of a run, of which the original takes a second for each program.
pub const RUN_ROUNDS: usize = 12;
const ROUNDS: usize = 60;
pub const BUDGET: u64 = 1_000_000;
const CALLS: u64 = 1_000;
/// As many breakpoints as a guarded run may have, at an address that no program
/// comes to.
pub const BREAKPOINTS: [u8; sizes::BREAKPOINTS] = [0xFE; sizes::BREAKPOINTS];
/// A run of the port makes its first instruction, then stretches of 256 without
/// a trace: the two sides must agree wherever a run ends.
pub const ENDS: [u64; 17] = [
    0, 1, 7, 128, 129, 255, 256, 257, 511, 512, 513, 767, 768, 769, 1_000, 1_025, 5_000,
];

/// What a run may take of the original's time.
pub const RUN_LIMIT: &str = "0.015";

/// Programs that never halt: eight opcodes in a loop, all that the ALU does and
/// a jump that is not taken, and stores to 64 addresses.
pub fn programs() -> Vec<Vec<u16>> {
    let eight = vec![
        0x1105, 0x6212, 0x4380, 0x3380, 0x7030, 0x9101, 0xA123, 0xD000,
    ];
    let alu = vec![
        0x11F3, 0x1207, 0x6312, 0x7030, 0x8302, 0x9401, 0xA513, 0xB612, 0xC732, 0xD1FF, 0xD000,
    ];
    let mut stores: Vec<u16> = (0x4180..0x41C0).collect();
    stores.push(0xD000);
    vec![eight, alu, stores]
}

/// Times mean nothing where the two sides do not do the same.
pub fn agree(programs: &[Vec<u16>]) {
    for words in programs {
        let image = images::bytes(words);
        assert!(runs_on(words), "a halted machine has nothing to do");
        for n in [0, 1, 2, 7, 100, CALLS] {
            assert_eq!(timing::steps(&image, n), steps(words, n));
            assert_eq!(timing::direct_steps(&image, n), steps(words, n));
            assert_eq!(timing::ticks(&image, n), ticks(words, n));
        }
        for n in ENDS.into_iter().chain([BUDGET]) {
            assert_eq!(timing::direct_run(&image, n), run(words, 0, n, &[]));
            for (ticks, breakpoints) in [(0, &[][..]), (0, &BREAKPOINTS), (2, &[]), (5, &[])] {
                let ours = timing::run(&image, ticks, n, breakpoints);
                assert_eq!(ours, run(words, ticks, n, breakpoints));
            }
        }
    }
}

fn loaded(words: &[u16]) -> Machine {
    let mut machine = Machine::new();
    machine.load_image(words);
    machine
}

fn runs_on(words: &[u16]) -> bool {
    let mut machine = loaded(words);
    for _ in 0..CALLS {
        machine.step_instruction();
    }
    machine.is_running()
}

/// The micro operations of a run, after so many ticks.
pub fn run(words: &[u16], ticks: u64, budget: u64, breakpoints: &[u8]) -> u64 {
    let mut machine = loaded(words);
    for _ in 0..ticks {
        machine.micro_step();
    }
    black_box(machine.run(budget, breakpoints));
    machine.micro_operations
}

fn steps(words: &[u16], n: u64) -> u64 {
    let mut machine = loaded(words);
    for _ in 0..n {
        black_box(machine.step_instruction());
    }
    machine.micro_operations
}

fn ticks(words: &[u16], n: u64) -> u64 {
    let mut machine = loaded(words);
    for _ in 0..n {
        black_box(machine.micro_step());
    }
    machine.micro_operations
}

/// A call of the machine: its limit, how often it is timed, how many there are
/// to a pass over a program, and either side of so many.
pub struct Call {
    pub name: &'static str,
    pub limit: &'static str,
    rounds: usize,
    calls: u64,
    rust: fn(&[u16]) -> u64,
    ours: fn(&[u8]) -> u64,
}

/// A whole run counts as one call.
pub const CALLS_TIMED: [Call; 7] = [
    Call {
        name: "`run`, budget 1,000,000",
        limit: RUN_LIMIT,
        rounds: RUN_ROUNDS,
        calls: 1,
        rust: |words| run(words, 0, BUDGET, &[]),
        ours: |image| timing::run(image, 0, BUDGET, &[]),
    },
    Call {
        name: "the same with 256 breakpoints",
        limit: RUN_LIMIT,
        rounds: RUN_ROUNDS,
        calls: 1,
        rust: |words| run(words, 0, BUDGET, &BREAKPOINTS),
        ours: |image| timing::run(image, 0, BUDGET, &BREAKPOINTS),
    },
    Call {
        name: "the same, begun in mid-instruction",
        limit: RUN_LIMIT,
        rounds: RUN_ROUNDS,
        calls: 1,
        rust: |words| run(words, 2, BUDGET, &[]),
        ours: |image| timing::run(image, 2, BUDGET, &[]),
    },
    Call {
        name: "`direct_run`, to a `run`",
        limit: RUN_LIMIT,
        rounds: RUN_ROUNDS,
        calls: 1,
        rust: |words| run(words, 0, BUDGET, &[]),
        ours: |image| timing::direct_run(image, BUDGET),
    },
    Call {
        name: "`step_instruction`",
        limit: "1.5",
        rounds: ROUNDS,
        calls: CALLS,
        rust: |words| steps(words, CALLS),
        ours: |image| timing::steps(image, CALLS),
    },
    Call {
        name: "`direct_instruction`, to a `step_instruction`",
        limit: "1.5",
        rounds: ROUNDS,
        calls: CALLS,
        rust: |words| steps(words, CALLS),
        ours: |image| timing::direct_steps(image, CALLS),
    },
    Call {
        name: "`micro_step`",
        limit: "8",
        rounds: ROUNDS,
        calls: CALLS,
        rust: |words| ticks(words, CALLS),
        ours: |image| timing::ticks(image, CALLS),
    },
];

/// Either side over all programs, of which each makes so many calls.
pub fn timed(call: &Call, programs: &[Vec<u16>]) -> (f64, f64) {
    let images: Vec<Vec<u8>> = programs.iter().map(|words| images::bytes(words)).collect();
    let mut rust = || {
        for words in programs {
            black_box((call.rust)(black_box(words)));
        }
    };
    let mut ours = || {
        for image in &images {
            black_box((call.ours)(black_box(image)));
        }
    };
    medians(
        call.rounds,
        programs.len() * call.calls as usize,
        &mut rust,
        &mut ours,
    )
}
