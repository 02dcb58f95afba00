//! The report call: a guarded run and its report, from the report program's
//! input. The original has no such call; beside it stand its plain `run` on the
//! same program, and its disassembly of 256 words.

use crate::machine::{run, BREAKPOINTS, BUDGET, ENDS, RUN_ROUNDS};
use crate::{medians, ROUNDS};
use oracle::disasm;
use oracle::report::bytes::LONGEST;
use oracle::report::guarded::Input;
use oracle::report::program;
use oracle::sizes::MEMORY_WORDS;
use std::hint::black_box;

/// What the report program reads for an image whose words have no owners.
fn input(words: &[u16], budget: u64, breakpoints: &[u8]) -> Vec<u8> {
    program::bytes(&Input {
        image: words.to_vec(),
        owners: vec![0; MEMORY_WORDS],
        budget,
        breakpoints: breakpoints.to_vec(),
        clearance: 0,
    })
}

/// Times mean nothing where the two sides do not do the same.
pub fn agree(programs: &[Vec<u16>]) {
    let mut out = [0; LONGEST];
    for words in programs.iter().map(Vec::as_slice).chain([&[][..]]) {
        for budget in ENDS {
            for breakpoints in [&[][..], &BREAKPOINTS] {
                let bytes = input(words, budget, breakpoints);
                let length = archive::report(&bytes, &mut out) as usize;
                assert_eq!(out[..length], *program::answer(&bytes));
            }
        }
    }
}

/// A run and its report, beside the original's plain run with as many
/// breakpoints.
pub fn whole(programs: &[Vec<u16>], breakpoints: &[u8]) -> (f64, f64) {
    let inputs: Vec<Vec<u8>> = programs
        .iter()
        .map(|words| input(words, BUDGET, breakpoints))
        .collect();
    let mut out = [0; LONGEST];
    let mut rust = || {
        for words in programs {
            black_box(run(black_box(words), 0, BUDGET, breakpoints));
        }
    };
    let mut ours = || {
        for bytes in &inputs {
            black_box(archive::report(black_box(bytes), black_box(&mut out)));
        }
    };
    medians(RUN_ROUNDS, programs.len(), &mut rust, &mut ours)
}

/// The report of an empty image, beside the original's texts of 256 words.
pub fn empty(words: &[u16]) -> (f64, f64) {
    let bytes = input(&[], 1, &[]);
    let mut out = [0; LONGEST];
    let mut rust = || {
        for word in words {
            black_box(disasm::disassemble(black_box(*word)));
        }
    };
    let mut ours = || {
        black_box(archive::report(black_box(&bytes), black_box(&mut out)));
    };
    medians(ROUNDS, 1, &mut rust, &mut ours)
}
