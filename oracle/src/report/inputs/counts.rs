//! Runs that move the number of hidden words, each with several budgets, so that it
//! shows after each of their instructions: document 02, Change 6. The longer ones are
//! in `count_loops.rs`.

use crate::programs::{HALT, JUMP};
use crate::report::guarded::Input;
use crate::report::inputs::examples::{input, longest_hidden_report, owners_at, with_word_10};
use crate::report::inputs::random::{with_budgets, with_every_budget};
use crate::report::inputs::readers;
use crate::sizes::MEMORY_WORDS;

/// The most instructions of a run that every budget is tried on.
const LONGEST: u64 = 300;
/// A value that no program names, to see whether it is shown.
const HIDDEN: u16 = 0x5EC7;

// -- one word and another ---------------------------------------------------

/// R1 is hidden, and R2 is open until it is loaded: each of them over word 20, which is
/// hidden at first, and over word 21; and a load of the word that may be hidden or not.
const STEPS: [u16; 5] = [0x4120, 0x4220, 0x4121, 0x4221, 0x3220];
pub const STORE_CASES: usize = 2 * STEPS.len() * STEPS.len() * STEPS.len();

/// Any three steps behind a load of word 20 into R1. With R2 over word 20 no word is
/// hidden any more, though R1 is.
pub fn stores(number: usize) -> Vec<Input> {
    let (both, rest) = (number % 2, number / 2);
    let step = |place: u32| STEPS[rest / STEPS.len().pow(place) % STEPS.len()];
    let code = [0x3120, step(0), step(1), step(2), HALT];
    let mut image = code.to_vec();
    image.resize(0x20, 0);
    image.extend([HIDDEN, 0x1234]);
    let marked = [0x20, 0x21];
    let case = with_every_budget(&input(&image, &marked[..1 + both], LONGEST), LONGEST);
    readers::owned_case(number, case)
}

// -- stops ------------------------------------------------------------------

/// Behind LOAD R1, [10] of a hidden word: stores that raise the count, lower it to
/// none, do both, or leave it.
const MOVES: [&[u16]; 7] = [
    &[0x4111],
    &[0x4210],
    &[0x4111, 0x4210],
    &[0x4111, 0x4112, 0x4211],
    &[0x4110],
    &[0x4211],
    &[],
];

/// HALT, two unknown words, a jump to itself, one whose test is hidden, one to a word
/// that the moves may have hidden, and a word that is hidden from the start.
const ENDS: [&[u16]; 7] = [
    &[HALT],
    &[0x5000],
    &[0x0000],
    &[JUMP | 0x0F, HALT],
    &[0xD105],
    &[JUMP | 0x11],
    &[],
];

/// Every stop behind each of the moves; a store over its own word; and runs that begin
/// with one or two open words, or with none.
pub fn stops() -> Vec<Vec<Input>> {
    let mut programs = Vec::new();
    for (moves, end) in MOVES.iter().flat_map(|moves| ENDS.map(|end| (moves, end))) {
        programs.extend(behind(moves, end));
    }
    programs.extend(over_itself());
    programs.extend(few_open());
    let programs = programs.iter().enumerate();
    programs
        .map(|(number, input)| readers::owned_case(number, with_every_budget(input, SHORT)))
        .collect()
}

/// The most instructions of such a run, of which some end by their budget alone.
const SHORT: u64 = 12;

/// With the end right behind the moves, without a breakpoint and with one there.
fn behind(moves: &[u16], end: &[u16]) -> [Input; 2] {
    let code = [&[0x3110], moves, end].concat();
    let at = 1 + moves.len() as u8;
    let mut image = with_word_10(&code, HIDDEN);
    image[0x0F] = JUMP | 0x0F;
    let marked = match end {
        [] => vec![0x10, at],
        _ => vec![0x10],
    };
    let plain = input(&image, &marked, SHORT);
    let stopped = Input {
        breakpoints: vec![at],
        ..plain.clone()
    };
    [plain, stopped]
}

/// A store of a hidden register and of an open one over the store itself, which is come
/// to again or not; and over the word behind it, which is hidden or open.
fn over_itself() -> Vec<Input> {
    let mut inputs = Vec::new();
    for register in [0x100, 0x200] {
        for (store, next) in [
            (0x4001, HALT),
            (0x4001, JUMP | 1),
            (0x4002, HALT),
            (0x4000, JUMP),
        ] {
            let code = [0x3110, store | register, next, HALT];
            let image = with_word_10(&code, HIDDEN);
            let marked: [&[u8]; 2] = [&[0x10], &[0x10, 2]];
            inputs.extend(marked.map(|marked| input(&image, marked, SHORT)));
        }
    }
    inputs
}

/// All words are hidden but those at these addresses, of which the first is 00.
fn few_open() -> Vec<Input> {
    let with = |words: &[(usize, u16)]| {
        let mut image = vec![HIDDEN; MEMORY_WORDS];
        let mut owners = vec![1; MEMORY_WORDS];
        for (address, word) in words {
            (image[*address], owners[*address]) = (*word, 0);
        }
        Input {
            image,
            owners,
            ..input(&[], &[], SHORT)
        }
    };
    let mut inputs = vec![with(&[]), with(&[(1, HALT)])];
    // A store over itself, over the next word, over another; a load; every end.
    for word in [
        0x4100, 0x4101, 0x4180, 0x41FF, 0x31FF, 0x1105, HALT, 0x5000, JUMP, 0xD001,
    ] {
        inputs.push(with(&[(0, word)]));
        inputs.push(with(&[(0, word), (1, 0x41FF)]));
    }
    // R1 is hidden and stored over the load, over itself, and over what is hidden.
    for store in [0x4100, 0x4101, 0x41FF] {
        inputs.push(with(&[(0, 0x31FF), (1, store)]));
        inputs.push(with(&[(0, 0x31FF), (1, store), (2, 0x4102)]));
    }
    inputs
}

// -- every number of marks --------------------------------------------------

pub const MARK_CASES: usize = MEMORY_WORDS + 1;

/// The last so many words are hidden. Of the run as much is made as is open: a load of
/// the last word, which is stored over the load, and an open store over that word.
pub fn marks(number: usize) -> Vec<Input> {
    let first = MEMORY_WORDS - number;
    let marked: Vec<u8> = (first..MEMORY_WORDS).map(|at| at as u8).collect();
    let plain = input(&[0x31FF, 0x4100, 0x42FF, HALT], &marked, 0);
    readers::owned_case(number, with_budgets(&plain, [0, 2, 3, 9]))
}

// -- straight on ------------------------------------------------------------

/// Programs without a jump and of up to 254 stores, with every budget.
pub fn straight() -> Vec<Vec<Input>> {
    let mut programs = vec![
        over_the_one_before(),
        each_over_itself(),
        down_to_none(),
        up_and_down(0x3F),
        again_and_again(|at| if at % 2 == 0 { 0x41FE } else { 0x42FE }),
        again_and_again(|at| if at < 125 { 0x41FE } else { 0x42FE }),
    ];
    programs.extend([2, 3, 4, 5, 6, 8, 11, 16, 31].map(nearly_all_hidden));
    let programs = programs.iter().enumerate();
    programs
        .map(|(number, input)| readers::owned_case(number, with_every_budget(input, LONGEST)))
        .collect()
}

/// A hidden word over each instruction before, until all are hidden but the last.
fn over_the_one_before() -> Input {
    Input {
        breakpoints: Vec::new(),
        ..longest_hidden_report()
    }
}

/// A hidden word over each instruction but the first, by itself.
fn each_over_itself() -> Input {
    let mut image: Vec<u16> = (0..MEMORY_WORDS as u16).map(|at| 0x4100 | at).collect();
    image[0] = 0x31FF;
    image[0xFF] = HIDDEN;
    input(&image, &[0xFF], LONGEST)
}

/// The upper half is hidden, and each word of the lower half opens one of it. What comes
/// behind is no instruction any more.
fn down_to_none() -> Input {
    let half = MEMORY_WORDS as u16 / 2;
    let image: Vec<u16> = (0..half).map(|at| 0x4200 | (half + at)).collect();
    let upper: Vec<u8> = (half as u8..=0xFF).collect();
    input(&image, &upper, LONGEST)
}

/// So many words are hidden, and opened again in the same order.
fn up_and_down(words: u16) -> Input {
    let mut image = vec![0x3180];
    for store in [0x4180, 0x4280] {
        image.extend((0..words).map(|at| store + at));
    }
    image.push(HALT);
    input(&image, &[0x80], LONGEST)
}

/// Two hundred and fifty stores over one word, of a hidden register and of an open one.
fn again_and_again(store: fn(u16) -> u16) -> Input {
    let mut image = vec![0x31FF];
    image.extend((0..250).map(store));
    image.push(HALT);
    input(&image, &[0xFF], LONGEST)
}

/// All are hidden but a load, so many stores of it over the words before them, as many
/// stores over hidden words that open these, and HALT.
fn nearly_all_hidden(stores: u16) -> Input {
    let mut image = vec![0x31FF];
    image.extend((0..stores).map(|at| 0x4100 | at));
    image.extend((0..stores).map(|at| 0x4280 + at));
    image.push(HALT);
    let mut owners = owners_at(&[]);
    owners[image.len()..].fill(1);
    Input {
        owners,
        ..input(&image, &[], LONGEST)
    }
}
