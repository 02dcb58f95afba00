//! Inputs that differ in the reader alone, in one owner of one word alone, or in one word
//! alone, which the reader may see or not: document 02, Change 7.

use crate::random::Random;
use crate::report::guarded::Input;
use crate::report::inputs::owner_bytes::{byte_and_clearance, BYTE_CASES};
use crate::report::inputs::pairs::{another, owned_value, roomy, VALUE_PROGRAMS};
use crate::report::owners::hidden_from;
use crate::sizes::MEMORY_WORDS;

// -- another reader ---------------------------------------------------------

pub const CLEARANCE_CASES: usize = 300;

/// A program by chance; the same for readers who may see one owner more or less, and for
/// the one who may see what the first may not. In every fourth nothing has an owner, so
/// that the head alone tells of the reader.
pub fn clearances(number: usize) -> Vec<Input> {
    let mut random = Random::new(0xC1EE_0000_0000 + number as u64);
    let mut input = roomy(&mut random);
    if number % 4 == 0 {
        input.owners.fill(0);
    }
    let flips = [0, 0xFF].into_iter().chain((0..8).map(|bit| 1 << bit));
    flips
        .map(|flip| Input {
            clearance: input.clearance ^ flip,
            ..input.clone()
        })
        .collect()
}

// -- one owner --------------------------------------------------------------

pub const OWNER_CASES: usize = MEMORY_WORDS;

/// A program by chance; the same with each owner of one word more, or less.
pub fn owner_bits(address: usize) -> Vec<Input> {
    let mut random = Random::new(0x0B17_0000_0000 + address as u64);
    let input = roomy(&mut random);
    let mut case = vec![input; 9];
    (0..8).for_each(|bit| case[1 + bit].owners[address] ^= 1 << bit);
    case
}

// -- one word ---------------------------------------------------------------

/// Each owner byte and reader, such as hide the word, or such as do not.
pub fn word_cases(hidden: bool) -> Vec<usize> {
    let is_so = |number: &usize| {
        let (owners, clearance) = byte_and_clearance(*number);
        hidden_from(owners, clearance) == hidden
    };
    (0..BYTE_CASES).filter(is_so).collect()
}

/// Two values of the word, in one of several programs.
pub fn words(number: usize) -> Vec<Input> {
    let (owners, clearance) = byte_and_clearance(number);
    let mut random = Random::new(0x30AD_0000_0000 + number as u64);
    let word = random.word();
    [word, another(&mut random, word)]
        .map(|word| owned_value(number % VALUE_PROGRAMS, word, owners, clearance))
        .to_vec()
}
