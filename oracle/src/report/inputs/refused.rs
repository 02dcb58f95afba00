//! Inputs of `massey_report` that are refused, and such as are just not: each
//! bound, every company of refusals, inputs cut at each byte and around the clearance,
//! over-long and damaged ones.

use crate::programs::HALT;
use crate::random::Random;
use crate::report::guarded::Input;
use crate::report::inputs::examples::input;
use crate::report::inputs::random;
use crate::report::program::bytes;
use crate::sizes::{BREAKPOINTS, LARGEST_BUDGET, MEMORY_WORDS};

pub const DAMAGED_INPUTS: usize = 2_000;

/// What each part of a whole input ends at, for an image of so many words:
/// length, words, owners, budget and count; the breakpoints and the clearance are behind.
fn ends(words: usize) -> [usize; 5] {
    let words = 2 + 2 * words;
    let owners = words + MEMORY_WORDS;
    [2, words, owners, owners + 8, owners + 8 + 2]
}

/// A program that ends at once, in an image of so many words and with so many
/// breakpoints.
fn sized(words: usize, breakpoints: usize) -> Input {
    let mut image = vec![HALT; words.min(1)];
    image.resize(words, 0x1234);
    Input {
        breakpoints: (0..breakpoints).map(|at| at as u8).collect(),
        ..input(&image, &[3, 0xFF], 9)
    }
}

// -- bounds -----------------------------------------------------------------

/// Each bound alone, in inputs that have all that their counts say.
pub fn bounds() -> Vec<Vec<u8>> {
    let mut inputs = Vec::new();
    let most = MEMORY_WORDS;
    let around = [most - 1, most, most + 1, most + 2, 300];
    let twice = [2 * most - 1, 2 * most, 2 * most + 1];
    for words in [&[0, 1, 2][..], &around, &twice, &[65_535]].concat() {
        inputs.push(bytes(&sized(words, 2)));
    }
    let most = BREAKPOINTS;
    let around = [most - 1, most, most + 1, most + 2];
    let twice = [2 * most - 1, 2 * most, 2 * most + 1];
    for count in [&[0, 1, 2][..], &around, &twice, &[65_535]].concat() {
        inputs.push(bytes(&sized(3, count)));
    }
    inputs.extend(budgets().iter().map(bytes));
    inputs.extend(owner_bytes());
    inputs
}

/// Around the bound, and each bit alone, so that no part of the number is left
/// unread.
fn budgets() -> Vec<Input> {
    let around = [0, LARGEST_BUDGET - 1, LARGEST_BUDGET, LARGEST_BUDGET + 1];
    let bits = (0..64).map(|bit| 1 << bit);
    let cut = [1 << 32 | 9, 1 << 20 | 9, u64::MAX, 1_000_000 << 8];
    let budgets = around.into_iter().chain(bits).chain(cut);
    budgets.map(|budget| input(&[HALT], &[], budget)).collect()
}

/// Every byte as a word's owners, and two of them at every address. All are lawful.
pub fn owner_bytes() -> Vec<Vec<u8>> {
    let with = |address: usize, owners: u8| {
        let mut input = sized(2, 1);
        input.owners[address] = owners;
        bytes(&input)
    };
    let values = (0..=255).map(|owners| with(7, owners));
    let addresses = (0..MEMORY_WORDS).flat_map(|address| [with(address, 2), with(address, 128)]);
    values.chain(addresses).collect()
}

// -- every company ----------------------------------------------------------

/// Every choice of the refusals 1, 3 and 4, with inputs that are whole, cut or
/// longer: the order of the numbers decides, not that of the parts.
pub fn companies() -> Vec<Vec<u8>> {
    let choices: [&[u8]; 8] = [&[], &[1], &[3], &[1, 3], &[4], &[1, 4], &[3, 4], &[1, 3, 4]];
    let mut inputs = Vec::new();
    for refusals in choices {
        let whole = bytes(&offending(refusals));
        let words = offending(refusals).image.len();
        for end in ends(words).into_iter().chain([whole.len()]) {
            inputs.extend(around(&whole, end));
        }
        inputs.extend([1, 2, 300].map(|more| longer(&whole, more)));
    }
    inputs
}

/// An input that offends so that each of these refusals holds, of 1, 3 and 4.
pub fn offending(refusals: &[u8]) -> Input {
    let has = |refusal: u8| refusals.contains(&refusal);
    let words = if has(1) { MEMORY_WORDS + 1 } else { 2 };
    let breakpoints = if has(3) { BREAKPOINTS + 1 } else { 2 };
    let mut input = sized(words, breakpoints);
    if has(4) {
        input.budget = LARGEST_BUDGET + 1;
    }
    input
}

/// The input cut at a byte, and at those just before and behind it.
fn around(whole: &[u8], end: usize) -> Vec<Vec<u8>> {
    let cuts = end.saturating_sub(2)..=(end + 2).min(whole.len());
    cuts.map(|cut| whole[..cut].to_vec()).collect()
}

fn longer(whole: &[u8], more: usize) -> Vec<u8> {
    let mut longer = whole.to_vec();
    longer.resize(whole.len() + more, 1);
    longer
}

// -- lengths ----------------------------------------------------------------

/// Inputs that end at every byte, and that go on past their end.
pub fn lengths() -> Vec<Vec<u8>> {
    let mut inputs = Vec::new();
    for (words, breakpoints) in [(0, 0), (3, 2)] {
        let whole = bytes(&sized(words, breakpoints));
        inputs.extend((0..=whole.len()).map(|cut| whole[..cut].to_vec()));
        inputs.extend((1..=20).map(|more| longer(&whole, more)));
    }
    for (words, breakpoints) in [
        (MEMORY_WORDS, BREAKPOINTS),
        (MEMORY_WORDS, 0),
        (0, BREAKPOINTS),
        (100, 40),
        (MEMORY_WORDS - 1, BREAKPOINTS - 1),
    ] {
        let whole = bytes(&sized(words, breakpoints));
        for end in ends(words).into_iter().chain([whole.len()]) {
            inputs.extend(around(&whole, end));
        }
        for step in [131, 256] {
            inputs.extend(
                (0..whole.len())
                    .step_by(step)
                    .map(|cut| whole[..cut].to_vec()),
            );
        }
        inputs.extend([1, 2, 7, 256, 1_000, 4_096, 70_000].map(|more| longer(&whole, more)));
    }
    inputs.extend(around_the_clearance());
    inputs.extend(counts());
    inputs.extend(owners_cut());
    inputs
}

/// Inputs that end before the clearance, with it, and one or two bytes behind it: with
/// the fewest and the most words and breakpoints, for several readers. What stands before
/// the clearance is an owner or a breakpoint, or the count's low byte, and is none.
fn around_the_clearance() -> Vec<Vec<u8>> {
    let mut inputs = Vec::new();
    for (words, breakpoints) in [
        (0, 0),
        (1, 1),
        (MEMORY_WORDS, 0),
        (MEMORY_WORDS, BREAKPOINTS),
    ] {
        for clearance in [0x00, 0x01, 0x80, 0xFE, 0xFF] {
            let whole = bytes(&Input {
                clearance,
                ..sized(words, breakpoints)
            });
            inputs.push(whole[..whole.len() - 1].to_vec());
            inputs.extend([1, 2].map(|more| longer(&whole, more)));
            inputs.push(whole);
        }
    }
    inputs
}

/// Counts that say more, or less, than there is; a count over its bound is
/// refused though nothing stands behind it.
fn counts() -> Vec<Vec<u8>> {
    let whole = bytes(&sized(3, 2));
    let (length, count) = (0, ends(3)[3]);
    let mut inputs = Vec::new();
    for number in [
        0u16, 1, 2, 3, 4, 5, 255, 256, 257, 258, 512, 0x0200, 0x8000, 0xFFFF,
    ] {
        for place in [length, count] {
            let mut other = whole.clone();
            other[place..place + 2].copy_from_slice(&number.to_be_bytes());
            // With all that is there, and with nothing behind the number.
            inputs.push(other[..place + 2].to_vec());
            inputs.push(other);
        }
    }
    inputs
}

/// Owners over 1, first or last, among owners that are not all there: no byte of them is
/// refused, but for what is missing.
fn owners_cut() -> Vec<Vec<u8>> {
    let owners_end = ends(1)[2];
    let mut inputs = Vec::new();
    for address in [0, MEMORY_WORDS - 1] {
        let mut input = sized(1, 1);
        input.owners[address] = 2;
        let whole = bytes(&input);
        inputs.extend((owners_end - MEMORY_WORDS..=whole.len()).map(|cut| whole[..cut].to_vec()));
    }
    inputs
}

// -- damage -----------------------------------------------------------------

/// An input by chance in which a few bytes are others, or missing, or more.
pub fn damaged(number: usize) -> Vec<u8> {
    let mut random = Random::new(0xDA3A_0000_0000 + number as u64);
    let mut bytes = bytes(&small_budget(random::by(&mut random)));
    for _ in 0..1 + random.below(3) {
        damage(&mut random, &mut bytes);
    }
    bytes
}

/// A changed program may run on, so it has little time.
fn small_budget(input: Input) -> Input {
    Input {
        budget: input.budget.min(255),
        ..input
    }
}

fn damage(random: &mut Random, bytes: &mut Vec<u8>) {
    let at = random.below(bytes.len());
    match random.below(9) {
        0 => drop(bytes.remove(at)),
        1 => bytes.insert(at, random.byte()),
        2 => bytes[0] = random.below(3) as u8,
        3 => bytes[1] = random.byte(),
        4 => bytes[at] ^= 1 << random.below(8),
        // The clearance, as long as nothing is missing.
        5 => *bytes.last_mut().expect("some are left") ^= 1 << random.below(8),
        _ => bytes[at] ^= 1,
    }
}
