//! Guarded runs that were chosen for their stops, registers and addresses: what
//! programs by chance come to too rarely.

use crate::programs::{HALT, IDLE, JUMP};
use crate::report::guarded::Input;
use crate::report::inputs::examples::{input, longest_report, with_word_10};
use crate::sizes::{BREAKPOINTS, CODE_WORDS, MEMORY_WORDS};

/// Where these programs have their data.
const DATA: u16 = 0x10;

/// Stops of every kind at places of every kind.
pub fn stops() -> Vec<Input> {
    [
        outside(),
        both_stops(),
        hidden_jumps(),
        over_itself(),
        wrapping(),
        one_breakpoint(),
        last_breakpoint(),
        all_touched(),
    ]
    .concat()
}

/// Marked words behind the image, to which PC runs on or jumps. They are zero,
/// so that an open one is a fault.
fn outside() -> Vec<Input> {
    let mut inputs = Vec::new();
    for length in 1..=6 {
        let code = vec![IDLE; length];
        for marked in 0..8 {
            inputs.push(input(&code, &[marked], 9));
        }
    }
    for target in (0u8..=255).step_by(5) {
        let jump = [JUMP | u16::from(target)];
        inputs.push(input(&jump, &[target.max(1)], 9));
        inputs.push(input(&jump, &[target.max(1)], 1));
    }
    inputs
}

/// A jump that is hidden itself and whose test is hidden, only one of these, or
/// neither; with all that comes before stops 4 and 5.
fn both_stops() -> Vec<Input> {
    let mut inputs = Vec::new();
    for (load, jump) in [
        (0x3110, 0xD105),
        (0x3010, 0xD105),
        (0x3210, 0xD105),
        (0x3010, 0xD005),
    ] {
        for marked in [vec![], vec![0x10], vec![1], vec![0x10, 1]] {
            for word in [0, 7] {
                for budget in 0..3 {
                    let plain = input(&with_word_10(&[load, jump], word), &marked, budget);
                    let breakpoints = vec![5, 1];
                    inputs.push(Input {
                        breakpoints,
                        ..plain.clone()
                    });
                    inputs.push(plain);
                }
            }
        }
    }
    inputs
}

/// The same for every register, and for R0: a hidden jump is a hidden word
/// first, else the stop would tell that it is a jump.
fn hidden_jumps() -> Vec<Input> {
    let mut inputs = Vec::new();
    for register in 1..16u16 {
        for loaded in [register, 0] {
            let code = [0x3010 | loaded << 8, JUMP | register << 8 | 5];
            let image = with_word_10(&code, 0x5EC7);
            inputs.extend([2, 9].map(|budget| input(&image, &[0x10, 1], budget)));
            inputs.push(input(&image, &[0x10], 2));
        }
    }
    inputs
}

/// A store over itself of a word of every opcode: the marks go by the word that
/// was fetched, and not by the one that stands there behind it.
fn over_itself() -> Vec<Input> {
    let mut inputs = Vec::new();
    for opcode in 0..16u16 {
        for digits in [0x111, 0x112, 0x210, 0x021] {
            let code = [0x3110, 0x3211, 0x4102, HALT];
            let mut image = with_word_10(&code, opcode << 12 | digits);
            image.push(0x1234);
            for marked in [vec![], vec![0x10], vec![0x11], vec![0x10, 0x11]] {
                inputs.extend([3, 9].map(|budget| input(&image, &marked, budget)));
            }
        }
    }
    inputs
}

/// Runs over the last address to 00, where one of the two has been hidden,
/// opened or left alone.
fn wrapping() -> Vec<Input> {
    let mut inputs = Vec::new();
    for store in [0x4100, 0x4200, 0x41FF, 0x42FF, IDLE] {
        let mut image = with_word_10(&[IDLE, 0x3110, store, 0xD0FE], HALT);
        image.resize(CODE_WORDS - 2, 0);
        image.extend([IDLE, 0x3310]);
        for marked in [vec![], vec![0x10], vec![0xFF], vec![0x10, 0xFF]] {
            inputs.extend((3..12).map(|budget| input(&image, &marked, budget)));
        }
    }
    inputs
}

/// As many breakpoints as are taken, of which only one is come to, at every
/// place among them.
fn one_breakpoint() -> Vec<Input> {
    let code = [IDLE, IDLE, IDLE, HALT];
    (0..BREAKPOINTS)
        .map(|place| {
            let mut breakpoints = vec![0x80; BREAKPOINTS];
            breakpoints[place] = 2;
            Input {
                breakpoints,
                ..input(&code, &[], 9)
            }
        })
        .collect()
}

/// As many again, of which only the last is come to, at many addresses.
fn last_breakpoint() -> Vec<Input> {
    let idle = vec![IDLE; CODE_WORDS];
    (1..=255)
        .step_by(7)
        .map(|address| {
            let mut breakpoints = vec![0; BREAKPOINTS - 1];
            breakpoints.push(address);
            Input {
                breakpoints,
                ..input(&idle, &[], 300)
            }
        })
        .collect()
}

/// The longest report and such as are nearly as long.
fn all_touched() -> Vec<Input> {
    let budgets = (253..=259).map(|budget| Input {
        budget,
        ..longest_report()
    });
    let without_breakpoints = budgets.clone().map(|input| Input {
        breakpoints: Vec::new(),
        ..input
    });
    budgets.chain(without_breakpoints).collect()
}

/// Every two registers: a hidden word goes from one to the other, by a copy and
/// by a sum, and into a word; then a jump asks for either.
pub fn registers() -> Vec<Input> {
    let mut inputs = Vec::new();
    for one in 0..16u16 {
        for other in 0..16u16 {
            let load = 0x3000 | one << 8 | DATA;
            // The copy does not use x, which is 0 for R0 alone.
            let copy = 0x2000 | one << 8 | other << 4 | one;
            let sum = 0x6000 | other << 8 | other << 4 | one;
            for next in [copy, sum] {
                let store = 0x4011 | other << 8;
                let jump = JUMP | other << 8 | 5;
                let code = [load, next, store, jump, HALT, HALT];
                inputs.push(input(&with_word_10(&code, 0x5EC7), &[DATA as u8], 9));
            }
        }
    }
    inputs
}

/// A load of every address, and a store to every address, marked and not.
pub fn addresses() -> Vec<Input> {
    let mut inputs = Vec::new();
    for address in 0..=255u8 {
        let at = u16::from(address);
        let code = [
            0x3100 | at,
            0x4100 | (at ^ 0x80),
            0x3200 | (at ^ 0x80),
            0x1100,
            0x4100 | at,
            HALT,
        ];
        let mut image = code.to_vec();
        image.resize(MEMORY_WORDS, 0x2222);
        for marked in [vec![address], vec![address ^ 0x80]] {
            inputs.extend([1, 3, 9].map(|budget| input(&image, &marked, budget)));
        }
    }
    inputs
}
