//! Registers that are cleared, by XOR of a register with itself or by a shift of
//! 16 or more, and so are open: document 02, Change 2. Beside these stand
//! instructions that look alike and clear nothing.

use crate::programs::{HALT, JUMP};
use crate::random::Random;
use crate::report::guarded::Input;
use crate::report::inputs::examples::{input, with_word_10};
use crate::report::inputs::opcodes::{self, behind_loads, marked};
use crate::report::inputs::pairs::with_other_hidden;
use crate::report::inputs::programs::{self, clearing, keeping};
use crate::report::inputs::{random, readers};

// -- chosen -----------------------------------------------------------------

/// Instructions behind LOAD R1, [10], for the sample: such as clear R1, and such
/// as do not.
pub const ROWS: [u16; 8] = [
    0xC111, 0xC112, 0xC122, 0x8110, 0x810F, 0x9110, 0x910F, 0xA111,
];

/// One of them, where word 10 is hidden; then a jump on R1 over HALT to HALT.
pub fn row(word: u16) -> Input {
    let code = [0x3110, word, 0xD105, HALT, 0, HALT];
    input(&with_word_10(&code, 0x5EC7), &[0x10], 9)
}

/// Every XOR of R0 to R3; ADD, AND and OR of each with itself; then R0 and R1,
/// shifted by every byte.
pub fn words() -> Vec<u16> {
    let registers = || 0..opcodes::REGISTERS;
    let mut words = Vec::new();
    for (x, y) in registers().flat_map(|x| registers().map(move |y| (x, y))) {
        words.extend(registers().map(|z| 0xC000 | x << 8 | y << 4 | z));
        words.extend([0x6000, 0xA000, 0xB000].map(|opcode| opcode | x << 8 | y * 0x11));
    }
    for shift in [0x8000, 0x8100, 0x9000, 0x9100] {
        words.extend((0..=0xFF).map(|count| shift | count));
    }
    words
}

/// One of these words over hidden and open registers, stopped by its budget
/// right behind the word, and at the end; often with other owners than marks have.
pub fn one(number: usize) -> Vec<Input> {
    let word = words()[number];
    let image = asking(word);
    // A shift has to do with R0 and R1 alone.
    let markings = match word >> 12 {
        8 | 9 => 4,
        _ => opcodes::MARKS,
    };
    (0..markings)
        .flat_map(|bits| {
            let case = [5, 9].map(|budget| input(&image, &marked(bits), budget));
            readers::owned_case(opcodes::MARKS * number + bits, case.to_vec())
        })
        .collect()
}

/// The word behind the loads of its registers. A jump asks for its target, and
/// either way stores it at an address of its own. What the jump compares it with
/// is 0, so that it is taken where the target is cleared; R2 and R3 are equal, so
/// that there is a 0 that is not cleared.
fn asking(word: u16) -> Vec<u16> {
    let target = word >> 8 & 0xF;
    let (asked, values) = match target {
        0 => (1, [0x1234, 0, 0xFFF1, 0xFFF1]),
        _ => (target, [0, 0x1234, 0xFFF1, 0xFFF1]),
    };
    let store = 0x4030 | target << 8;
    let jump = JUMP | asked << 8 | 8;
    behind_loads(&[word, jump, store, HALT, store | 1, HALT], values)
}

// -- by chance --------------------------------------------------------------

pub const PAIR_CASES: usize = 3_000;
/// Where these programs have their data, and how many words at its begin are
/// hidden in all of them.
const DATA: usize = 0x20;
const HIDDEN: usize = 4;
/// More than these runs begin, but for such as a store makes loop.
const AMPLE: u64 = 400;

/// A program by chance that clears what it loads, in every second case with
/// breakpoints and a budget; and the same once or twice with other hidden words.
pub fn pairs(number: usize) -> Vec<Input> {
    let mut random = Random::new(0xC1EA_0000_0000 + number as u64);
    let random = &mut random;
    let mut input = program(random);
    if random.below(2) == 0 {
        input = random::bounded(random, input);
    }
    let mut case = vec![input];
    for _ in 0..1 + random.below(2) {
        case.push(with_other_hidden(random, &case[0]));
    }
    case
}

fn program(random: &mut Random) -> Input {
    let mut image = Vec::new();
    for _ in 0..1 + random.below(3) {
        round(random, &mut image);
    }
    image.extend(programs::end(random));
    image.resize(DATA, 0);
    image.extend((0..programs::ZONE).map(|_| programs::value(random)));
    let mut marks = programs::zone_marks(random, DATA, 2);
    marks[DATA..DATA + HIDDEN].fill(1);
    let input = Input {
        image,
        owners: marks,
        budget: AMPLE,
        breakpoints: Vec::new(),
        clearance: 0,
    };
    readers::owned(random, input)
}

/// A hidden word is loaded, now and then one into R0 too, and moved by chance.
/// Then what was loaded is cleared, a jump asks for it, and it is stored.
fn round(random: &mut Random, code: &mut Vec<u16>) {
    let asked = 1 + random.below(3) as u16;
    let loaded = match random.below(4) {
        0 => vec![asked, 0],
        _ => vec![asked],
    };
    for register in &loaded {
        code.push(0x3000 | register << 8 | (DATA + random.below(HIDDEN)) as u16);
    }
    if random.below(2) == 0 {
        code.extend(programs::body(random, 2, DATA));
    }
    for register in &loaded {
        code.push(mostly_clearing(random, *register));
    }
    let over = programs::body(random, 2, DATA);
    let target = code.len() + 1 + random.below(1 + over.len());
    code.push(JUMP | asked << 8 | target as u16);
    code.extend(over);
    code.push(0x4000 | asked << 8 | written(random, code.len()));
}

/// One in eight clears nothing, so that the jump's test is hidden.
fn mostly_clearing(random: &mut Random, register: u16) -> u16 {
    match random.below(8) {
        0 => keeping(random, register),
        _ => clearing(random, register),
    }
}

/// Where a cleared register goes: among the data, or over the word that is next.
fn written(random: &mut Random, at: usize) -> u16 {
    match random.below(8) {
        0 => at as u16 + 1,
        _ => programs::address(random, DATA),
    }
}
