//! Inputs that were chosen: document 01's examples of the guarded run, and the
//! longest reports and runs.

use crate::programs::HALT;
use crate::report::guarded::Input;
use crate::sizes::{BREAKPOINTS, CODE_WORDS, LARGEST_BUDGET, MEMORY_WORDS};

/// An input without breakpoints, which is marked at these addresses: a mark of document
/// 01 is the owner byte 01, for a reader with the clearance 00.
pub fn input(image: &[u16], marked: &[u8], budget: u64) -> Input {
    Input {
        image: image.to_vec(),
        owners: owners_at(marked),
        budget,
        breakpoints: Vec::new(),
        clearance: 0,
    }
}

/// The owner bytes of such marks.
pub fn owners_at(marked: &[u8]) -> Vec<u8> {
    let mut owners = vec![0; MEMORY_WORDS];
    for address in marked {
        owners[usize::from(*address)] = 1;
    }
    owners
}

/// A program, zeros up to address 10, and a word there.
pub fn with_word_10(program: &[u16], word: u16) -> Vec<u16> {
    let mut image = program.to_vec();
    image.resize(0x10, 0);
    image.push(word);
    image
}

/// A value that no example names, to see whether it is shown.
const HIDDEN: u16 = 0x5EC7;

/// Example 10: a breakpoint is never before the first instruction.
pub fn example_10() -> Input {
    Input {
        breakpoints: vec![0],
        ..input(&[HALT], &[], 1)
    }
}

/// Example 11: marks go through a register into a word, and not past a LOAD yz.
pub fn example_11() -> Input {
    let program = [0x3110, 0x4111, 0x1105, 0x4112, HALT];
    input(&with_word_10(&program, HIDDEN), &[0x10], 9)
}

/// Example 12: a jump that would tell of a hidden word.
pub fn example_12() -> Input {
    input(&with_word_10(&[0x3110, 0xD105], HIDDEN), &[0x10], 9)
}

/// Example 13: a jump on R0 tells nothing.
pub fn example_13() -> Input {
    input(&with_word_10(&[0x3010, 0xD005], HIDDEN), &[0x10], 9)
}

/// Example 14: nothing at all.
pub fn example_14() -> Input {
    input(&[], &[], 1)
}

/// Example 15: the largest budget, and one more.
pub fn example_15() -> [Input; 2] {
    [LARGEST_BUDGET, LARGEST_BUDGET + 1].map(|budget| input(&[HALT], &[], budget))
}

/// The longest report: each word that PC comes to stores R1 over itself, and the
/// breakpoints are all at 00, where PC comes only behind the last.
pub fn longest_report() -> Input {
    let image: Vec<u16> = (0..CODE_WORDS as u16).map(|at| 0x4100 | at).collect();
    Input {
        breakpoints: vec![0; BREAKPOINTS],
        ..input(&image, &[], LARGEST_BUDGET)
    }
}

/// Nearly as long, and nearly all is hidden at the end: a hidden word is loaded
/// and stored over each instruction before, until PC comes to the word itself.
pub fn longest_hidden_report() -> Input {
    let mut image: Vec<u16> = (0..CODE_WORDS as u16)
        .map(|at| 0x4100 | at.saturating_sub(1))
        .collect();
    image[0] = 0x31FF;
    image[0xFF] = HIDDEN;
    Input {
        breakpoints: vec![0; BREAKPOINTS],
        ..input(&image, &[0xFF], 300)
    }
}

/// Runs that spend the largest budget: a jump to itself, and a loop that loads
/// and stores a hidden word.
pub fn long_runs() -> [Input; 2] {
    let looping = with_word_10(&[0x3110, 0x6111, 0x4110, 0xD000], HIDDEN);
    [
        input(&[0xD000], &[], LARGEST_BUDGET),
        input(&looping, &[0x10], LARGEST_BUDGET),
    ]
}

/// All of them but the long runs.
pub fn all() -> Vec<Input> {
    let mut all = vec![
        example_10(),
        example_11(),
        example_12(),
        example_13(),
        example_14(),
    ];
    all.extend(example_15());
    all.extend([longest_report(), longest_hidden_report()]);
    all
}
