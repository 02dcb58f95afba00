//! Every opcode over hidden and open registers and words, in every company:
//! equal registers among them.

use crate::programs::{HALT, IDLE};
use crate::report::guarded::Input;
use crate::report::inputs::examples::input;
use crate::sizes::CODE_WORDS;

/// All that begin on open words and do not end the run at once.
const OPCODES: [u16; 12] = [1, 2, 3, 4, 6, 7, 8, 9, 0xA, 0xB, 0xC, 0xD];
/// R0 to R3 are in use, each loaded from a word of its own.
pub const REGISTERS: u16 = 4;
/// Where those words are; R0 and R1 are equal.
const DATA: usize = 0x20;
const VALUES: Values = [0x1234, 0x1234, 0xFFF1, 0x8001];
type Values = [u16; REGISTERS as usize];
/// Digits x, y and z: each pair of x and y, with two of z.
const DIGITS: usize = 32;
pub const MARKS: usize = 16;

pub const OPCODE_CASES: usize = OPCODES.len() * DIGITS * MARKS;

/// One of them, stopped by its budget right behind the instruction, and with
/// instructions behind it; then once more with an owner for each register.
pub fn one(number: usize) -> Vec<Input> {
    let word = OPCODES[number / MARKS / DIGITS] << 12 | digits(number / MARKS % DIGITS);
    let hidden = number % MARKS;
    let marked = marked(hidden);
    let mut case = [5, 8]
        .map(|budget| input(&image(word), &marked, budget))
        .to_vec();
    case.push(each_its_owner(input(&image(word), &[], 5), hidden));
    case
}

/// Each word of the data has an owner of its own, so that an owner byte tells which of
/// them a value was made of. The reader is kept from those whose bits are set.
fn each_its_owner(mut input: Input, hidden: usize) -> Input {
    for index in 0..usize::from(REGISTERS) {
        input.owners[DATA + index] = 1 << index;
    }
    let clearance = !(hidden as u8);
    Input { clearance, ..input }
}

/// The registers x, y and z, with z equal to x in the first half alone.
fn digits(number: usize) -> u16 {
    let number = number as u16;
    let (x, y) = (number % REGISTERS, number / REGISTERS % REGISTERS);
    let z = match number < 16 {
        true => x,
        false => (x + 1 + y % 3) % REGISTERS,
    };
    x << 8 | y << 4 | z
}

/// The data that a number's four bits name.
pub fn marked(bits: usize) -> Vec<u8> {
    let marked = |index: &usize| bits >> index & 1 == 1;
    (0..4)
        .filter(marked)
        .map(|index| (DATA + index) as u8)
        .collect()
}

/// Four loads, the word, and HALT.
fn image(word: u16) -> Vec<u16> {
    behind_loads(&[word, HALT], VALUES)
}

/// Loads of these values into the four registers, and code behind them.
pub fn behind_loads(code: &[u16], values: Values) -> Vec<u16> {
    let loads = (0..REGISTERS).map(|register| 0x3000 | register << 8 | (DATA as u16 + register));
    let mut image: Vec<u16> = loads.chain(code.iter().copied()).collect();
    image.resize(DATA, 0);
    image.extend(values);
    image
}

/// One instruction behind a LOAD [yz] of a hidden word, at each stop that can
/// show MDR's owners: budget, breakpoint, a hidden word and a hidden test.
pub fn behind_a_load() -> Vec<Input> {
    let image = |next: u16| {
        let mut image = image(next);
        image[..2].copy_from_slice(&[0x3121, next]);
        image
    };
    let mut inputs = Vec::new();
    for marked in [vec![], vec![0x21], vec![0x21, 0x01]] {
        for next in [
            0x4130, 0x3130, 0xD105, 0xD005, 0x1105, 0x2032, 0x7010, HALT, 0x5000, 0x2F32, 0x7A1B,
            0xEABC,
        ] {
            for budget in 0..4 {
                let plain = input(&image(next), &marked, budget);
                inputs.push(Input {
                    breakpoints: vec![1],
                    ..plain.clone()
                });
                inputs.push(plain);
            }
        }
    }
    inputs
}

/// Marks on each single address, by a program that stops at each: before HALT,
/// whose text would end in the word, were it open.
pub fn each_mark() -> Vec<Input> {
    let with_halt = |address: u8| {
        let mut image = vec![IDLE; CODE_WORDS];
        image[usize::from(address)] = 0xEABC;
        image
    };
    (0..=255)
        .map(|address| input(&with_halt(address), &[address], 300))
        .collect()
}
