//! Owner bytes and clearances: document 02, Change 7. An input with marks, which are the
//! owner byte 01 for a reader with the clearance 00, can be given others, so that its run
//! is the same, and its report has other owner bytes.

use crate::random::Random;
use crate::report::guarded::Input;
use crate::report::owners::hidden_from;

/// Nothing, all, each owner alone, and all but each.
pub const CLEARANCES: [u8; 18] = {
    let mut clearances = [0; 18];
    clearances[1] = 0xFF;
    let mut bit = 0;
    while bit < 8 {
        clearances[2 + bit] = 1 << bit;
        clearances[10 + bit] = !(1 << bit);
        bit += 1;
    }
    clearances
};

/// One of these, or any.
pub fn clearance(random: &mut Random) -> u8 {
    match random.below(2) {
        0 => random.pick(&CLEARANCES),
        _ => random.byte(),
    }
}

/// Owners that hide a value from this reader: one outside the clearance at least, and
/// any others. There are none for a reader who is kept from nothing.
pub fn hiding(random: &mut Random, clearance: u8) -> u8 {
    let outside: Vec<u8> = (0..8)
        .map(|bit| 1 << bit)
        .filter(|owner| hidden_from(*owner, clearance))
        .collect();
    let owner = random.pick(&outside);
    match random.below(4) {
        0 => owner,
        1 => owner | random.byte() & !clearance,
        2 => owner | clearance,
        _ => owner | random.byte(),
    }
}

/// Owners, mostly, that hide nothing from this reader.
pub fn showing(random: &mut Random, clearance: u8) -> u8 {
    match random.below(3) {
        0 => 0,
        1 => clearance,
        _ => clearance & random.byte(),
    }
}

/// The same marks by other owners, for another reader: one in four is left as it is.
pub fn owned(random: &mut Random, input: Input) -> Input {
    match random.below(4) {
        0 => input,
        _ => wholly_owned(random, input),
    }
}

/// What is hidden stays so, and what is not has owners that the reader may see; so the
/// run is the same.
pub fn wholly_owned(random: &mut Random, mut input: Input) -> Input {
    // Not all, since nothing is hidden from that reader.
    let clearance = match clearance(random) {
        0xFF => 0x7F,
        clearance => clearance,
    };
    for owners in &mut input.owners {
        *owners = match hidden_from(*owners, input.clearance) {
            true => hiding(random, clearance),
            false => showing(random, clearance),
        };
    }
    Input { clearance, ..input }
}

/// The same input for any reader, who is kept from more or less of it.
pub fn for_any(random: &mut Random, input: Input) -> Input {
    let mut input = wholly_owned(random, input);
    input.clearance = match random.below(3) {
        0 => 0xFF,
        1 => input.clearance | 1 << random.below(8),
        _ => input.clearance & random.byte(),
    };
    input
}

/// A family's case by other owners, by its number, so that its inputs stay together.
pub fn owned_case(number: usize, case: Vec<Input>) -> Vec<Input> {
    let alike = |input| owned(&mut by_number(number), input);
    case.into_iter().map(alike).collect()
}

/// Inputs that have nothing to do with each other, each by owners of its own.
pub fn owned_each(inputs: Vec<Input>) -> Vec<Input> {
    let inputs = inputs.into_iter().enumerate();
    inputs
        .map(|(number, input)| owned(&mut by_number(number), input))
        .collect()
}

fn by_number(number: usize) -> Random {
    Random::new(0x0A3E_0000_0000 + number as u64)
}
