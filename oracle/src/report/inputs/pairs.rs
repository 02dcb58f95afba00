//! Inputs that belong together. Such as differ in words alone that are hidden from the
//! reader must have one report; such as differ in one open thing must have two.

use crate::machines::EDGES;
use crate::programs::HALT;
use crate::random::Random;
use crate::report::guarded::Input;
use crate::report::inputs::examples::{input, with_word_10};
use crate::report::inputs::{random, readers};
use crate::report::owners::hidden_from;
use crate::sizes::{BREAKPOINTS, LARGEST_BUDGET, MEMORY_WORDS};

pub const HIDDEN_CASES: usize = 3_000;
pub const OPEN_CASES: usize = 7 * 500;

// -- hidden words -----------------------------------------------------------

/// An input, the same with other hidden words, and with one other hidden word.
pub fn hidden(number: usize) -> Vec<Input> {
    let mut random = Random::new(0x41DD_0000_0000 + number as u64);
    let input = with_hidden(&mut random);
    let all = with_other_hidden(&mut random, &input);
    let one = random.pick(&hidden_addresses(&input));
    let one = with_others(&mut random, &input, &[one]);
    vec![input, all, one]
}

/// An input by chance that has hidden words in its image.
fn with_hidden(random: &mut Random) -> Input {
    let mut input = random::by(random);
    if input.image.is_empty() {
        input.image.push(HALT);
    }
    if hidden_addresses(&input).is_empty() {
        if input.clearance == 0xFF {
            input.clearance = 0x7F;
        }
        let address = random.below(input.image.len());
        input.owners[address] = readers::hiding(random, input.clearance);
        // The run may be another one now.
        input.budget = input.budget.min(400);
    }
    input
}

fn hidden_addresses(input: &Input) -> Vec<usize> {
    addresses(input, true)
}

fn open_addresses(input: &Input) -> Vec<usize> {
    addresses(input, false)
}

/// The addresses of the image that are hidden from the reader, or those that are not.
fn addresses(input: &Input, hidden: bool) -> Vec<usize> {
    let is_so = |address: &usize| hidden_from(input.owners[*address], input.clearance) == hidden;
    (0..input.image.len()).filter(is_so).collect()
}

/// The same with another word at each hidden address of the image.
pub fn with_other_hidden(random: &mut Random, input: &Input) -> Input {
    with_others(random, input, &hidden_addresses(input))
}

/// The same with another word at each of these addresses.
fn with_others(random: &mut Random, input: &Input, addresses: &[usize]) -> Input {
    let mut other = input.clone();
    for address in addresses {
        let word = &mut other.image[*address];
        *word = another(random, *word);
    }
    other
}

pub fn another(random: &mut Random, word: u16) -> u16 {
    let other = match random.below(3) {
        0 => random.pick(&EDGES),
        1 => word ^ 1 << random.below(16),
        _ => random.word(),
    };
    match other == word {
        true => !word,
        false => other,
    }
}

// -- every value of one hidden word -----------------------------------------

/// Programs that do something with their word 10.
pub const VALUE_PROGRAMS: usize = 9;
/// That word has two owners, of whom the first reader may see one, and the second both.
const VALUE_OWNERS: u8 = 0x05;
const KEPT_FROM_IT: u8 = 0x06;
const SHOWN_IT: u8 = 0x07;

/// A program with this word, which is hidden.
pub fn value(program: usize, word: u16) -> Input {
    owned_value(program, word, VALUE_OWNERS, KEPT_FROM_IT)
}

/// The same for a reader who sees it.
pub fn shown_value(program: usize, word: u16) -> Input {
    owned_value(program, word, VALUE_OWNERS, SHOWN_IT)
}

/// A program with this word, its owners and a reader. Words 00, 01 and 11 have owners whom
/// the reader may see, if there are any.
pub fn owned_value(program: usize, word: u16, owners: u8, clearance: u8) -> Input {
    let reckoning = [
        0x3110, 0x6211, 0x8203, 0x7020, 0xA312, 0xB412, 0xC512, 0x910F, 0x4211, 0x2061, 0x4313,
        0xC711, 0x4714, 0x1105, HALT,
    ];
    let clearing = [
        0x3110, 0xC211, 0xD204, HALT, 0x9110, 0xD107, HALT, 0x4111, HALT,
    ];
    let (code, budget): (&[u16], u64) = match program {
        // Through registers and words to HALT; R7 and word 14 are cleared.
        0 => (&reckoning, 40),
        // A jump that would tell, of Rx and of R0.
        1 => (&[0x3110, 0xD105, HALT], 9),
        2 => (&[0x3010, 0xD105, HALT], 9),
        // A jump that tells nothing.
        3 => (&[0x3010, 0xD003, HALT, 0x4011, 0x1001, HALT], 9),
        // Stopped with the word in MDR, read and written.
        4 => (&[0x3110], 1),
        5 => (&[0x3110, 0x4111], 2),
        // The word itself, and a copy of it, is to be carried out.
        6 => (&[0xD010], 9),
        7 => (&[0x3110, 0x4103, 0x1200], 9),
        // Cleared by XOR into another register and by a shift, with a jump on each.
        _ => (&clearing, 9),
    };
    let image = with_word_10(code, word);
    let mut input = input(&image, &[], budget);
    input.owners[..2].copy_from_slice(&[clearance & 0x33, clearance]);
    input.owners[0x10..0x12].copy_from_slice(&[owners, clearance & 0xCC]);
    Input { clearance, ..input }
}

/// All values with one high byte; the value 0 stands first, so that the cases
/// of a program hang together.
pub fn values(program: usize, high: usize) -> Vec<Input> {
    let words = words_from(high);
    let zero = [value(program, 0)].into_iter();
    zero.chain(words.map(|word| value(program, word))).collect()
}

fn words_from(high: usize) -> impl Iterator<Item = u16> {
    (0..256).map(move |low| (high << 8 | low) as u16)
}

/// Some high bytes: of unknown words and of AND, and of words whose texts would end
/// in them, were they open.
const HIGHS: [usize; 7] = [0x00, 0x2F, 0x55, 0x7A, 0xAA, 0xEA, 0xFF];

pub const MORE_VALUES: usize = HIGHS.len() * (VALUE_PROGRAMS - 1);

/// All values with one of these high bytes, in one of the programs but the first.
pub fn more_values(number: usize) -> Vec<Input> {
    values(1 + number / HIGHS.len(), HIGHS[number % HIGHS.len()])
}

/// All values but the first with one of these high bytes, in any of the programs, for the
/// reader who sees the word.
pub const SHOWN_VALUES: usize = VALUE_PROGRAMS;

pub fn shown_values(number: usize) -> Vec<Input> {
    let words = words_from(HIGHS[number % HIGHS.len()]);
    words.map(|word| shown_value(number, word)).collect()
}

// -- open things ------------------------------------------------------------

/// Two inputs that differ in one open thing.
pub fn open(number: usize) -> Vec<Input> {
    let mut random = Random::new(0x09E4_0000_0000 + number as u64);
    let changes = [length, budget, breakpoint, order, owner, clearance, word];
    let change = changes[number % changes.len()];
    let (input, other) = change(&mut random);
    vec![input, other]
}

/// An input by chance with room for one more word and one more breakpoint.
pub fn roomy(random: &mut Random) -> Input {
    let mut input = random::by(random);
    input.image.truncate(MEMORY_WORDS - 1);
    input.breakpoints.truncate(BREAKPOINTS - 1);
    input.budget = input.budget.min(400);
    input
}

/// A zero more at the image's end, where a zero is anyway.
fn length(random: &mut Random) -> (Input, Input) {
    let input = roomy(random);
    let mut other = input.clone();
    other.image.push(0);
    (input, other)
}

/// One more or less, or anything else that is taken; the run may well be the
/// same.
fn budget(random: &mut Random) -> (Input, Input) {
    let input = random::by(random);
    let mut other = input.clone();
    other.budget = match random.below(3) {
        0 => input.budget.saturating_sub(1),
        1 => (input.budget + 1).min(LARGEST_BUDGET),
        _ => random.below(400) as u64,
    };
    if other.budget == input.budget {
        other.budget = u64::from(input.budget == 0);
    }
    (input, other)
}

/// One where there was none; else the last one changed, gone or repeated.
fn breakpoint(random: &mut Random) -> (Input, Input) {
    let input = roomy(random);
    let mut other = input.clone();
    match other.breakpoints.last_mut() {
        None => other.breakpoints.push(random.byte()),
        Some(last) => match random.below(3) {
            0 => *last ^= 1 << random.below(8),
            1 => drop(other.breakpoints.pop()),
            _ => {
                let again = *last;
                other.breakpoints.push(again);
            }
        },
    }
    (input, other)
}

/// The same breakpoints, of which two that differ have changed places.
fn order(random: &mut Random) -> (Input, Input) {
    let mut input = roomy(random);
    let (first, second) = (random.byte(), 1 + random.below(255) as u8);
    input.breakpoints.truncate(200);
    input.breakpoints.insert(0, first);
    input.breakpoints.push(first.wrapping_add(second));
    let mut other = input.clone();
    let last = other.breakpoints.len() - 1;
    other.breakpoints.swap(0, last);
    (input, other)
}

/// One owner more or less of any word, inside the image or outside.
fn owner(random: &mut Random) -> (Input, Input) {
    let input = roomy(random);
    let mut other = input.clone();
    other.owners[random.below(MEMORY_WORDS)] ^= 1 << random.below(8);
    (input, other)
}

/// Another reader, by one owner or by several.
fn clearance(random: &mut Random) -> (Input, Input) {
    let input = roomy(random);
    let mut other = input.clone();
    other.clearance ^= match random.below(2) {
        0 => 1 << random.below(8),
        _ => 1 + random.below(255) as u8,
    };
    (input, other)
}

/// A word of the image that the reader sees, by one bit or wholly.
fn word(random: &mut Random) -> (Input, Input) {
    let mut input = roomy(random);
    if open_addresses(&input).is_empty() {
        input.image.resize(input.image.len().max(1), HALT);
        input.owners[0] = input.clearance;
    }
    let address = random.pick(&open_addresses(&input));
    let other = with_others(random, &input, &[address]);
    (input, other)
}
