//! Every owner byte: of a word that is come to, loaded, stored and asked for, joined with
//! others, and left in MDR; for readers who may see all of it, some or nothing. Document
//! 02, Change 7.

use crate::programs::HALT;
use crate::random::Random;
use crate::report::guarded::Input;
use crate::report::inputs::examples::{input, with_word_10};
use crate::report::inputs::random::with_budgets;
use crate::report::inputs::readers::CLEARANCES;

/// The owner bytes that there are.
pub const OWNER_BYTES: usize = 256;
/// A value that no program names, to see whether it is shown.
const VALUE: u16 = 0x5EC7;

// -- each byte for each reader ----------------------------------------------

pub const BYTE_CASES: usize = CLEARANCES.len() * OWNER_BYTES;

/// The owner byte of a case, and the reader.
pub fn byte_and_clearance(number: usize) -> (u8, u8) {
    (number as u8, CLEARANCES[number / OWNER_BYTES])
}

/// The byte at a word that is come to; then at one that is loaded and stored, and that a
/// jump asks for, by Rx and by R0.
pub fn bytes(number: usize) -> Vec<Input> {
    let (owners, clearance) = byte_and_clearance(number);
    // The jump is taken in every second case.
    let word = if number % 2 == 0 { 0 } else { VALUE };
    [
        at_pc(owners),
        asked(1, word, owners),
        asked(0, word, owners),
    ]
    .map(|input| Input { clearance, ..input })
    .to_vec()
}

/// Where it is not hidden, the run ends right behind it: MDR has what was fetched, and no
/// owners. Its text ends in the word. The last word has the same owners.
fn at_pc(owners: u8) -> Input {
    let mut input = input(&[0x1105, 0x2F31, HALT], &[], 2);
    (input.owners[0x01], input.owners[0xFF]) = (owners, owners);
    input
}

/// A register from word 10 and into word 11; then a jump on R1. The other one is 0.
fn asked(register: u16, word: u16, owners: u8) -> Input {
    let digit = register << 8;
    let code = [0x3010 | digit, 0x4011 | digit, 0xD105, HALT, 0, HALT];
    let mut input = input(&with_word_10(&code, word), &[], 9);
    input.owners[0x10] = owners;
    input
}

// -- joined -----------------------------------------------------------------

/// How many others each byte is joined with.
pub const OTHERS: usize = 12;
/// Where the words are, and where what is made of them goes: four words for each other.
const JOINED: usize = 0xD0;
pub const RESULTS: usize = 0x80;

/// Each owner alone, all of them, all that the byte has not, itself, and any.
pub fn others(number: usize) -> [u8; OTHERS] {
    let owners = number as u8;
    let any = Random::new(0x0413_0000_0000 + number as u64).byte();
    let mut others = [0xFF, !owners, owners, any, 0, 0, 0, 0, 0, 0, 0, 0];
    (0..8).for_each(|bit| others[4 + bit] = 1 << bit);
    others
}

/// One byte and each of the others, joined by ADD, AND, OR and XOR, in either order, and
/// stored: for a reader who may see the byte and no other owner, for one who may see all
/// the others, and for a third.
pub fn unions(number: usize) -> Vec<Input> {
    let owners = number as u8;
    let mut random = Random::new(0x0473_0000_0000 + number as u64);
    let mut image = joining(number);
    image.resize(JOINED, 0);
    image.extend((0..=OTHERS).map(|_| random.word()));
    let mut input = input(&image, &[], 200);
    input.owners[JOINED] = owners;
    input.owners[JOINED + 1..][..OTHERS].copy_from_slice(&others(number));
    [owners, !owners, CLEARANCES[number % CLEARANCES.len()]]
        .map(|clearance| Input {
            clearance,
            ..input.clone()
        })
        .to_vec()
}

/// R1 has the byte, R2 one of the others. Which is y and which is z changes from opcode to
/// opcode, and from one byte to the next.
fn joining(number: usize) -> Vec<u16> {
    let mut code = vec![0x3100 | JOINED as u16];
    for other in 0..OTHERS {
        code.push(0x3200 | (JOINED + 1 + other) as u16);
        for (index, opcode) in [0x6, 0xA, 0xB, 0xC].into_iter().enumerate() {
            let digits = [0x312, 0x321][(number + index) % 2];
            let result = RESULTS + 4 * other + index;
            code.extend([opcode << 12 | digits, 0x4300 | result as u16]);
        }
    }
    code.push(HALT);
    code
}

// -- left in MDR ------------------------------------------------------------

/// What comes behind a load or a store: a breakpoint, a spent budget, a hidden word, a
/// jump on what was loaded, HALT, an unknown word, and a word with owners whom the reader
/// may see, which is carried out.
pub const MDR_ENDS: usize = 7;

/// A word with these owners is loaded last, and stored last, with each end behind it: for
/// a reader who may see these owners alone, and for one who is kept from one of them and
/// from nothing else. In this order.
pub fn mdr(number: usize) -> Vec<Input> {
    let owners = number as u8;
    let kept_from = owners & owners.wrapping_neg();
    let mut inputs = Vec::new();
    for code in [&[0x3110][..], &[0x3110, 0x4111]] {
        for clearance in [owners, !kept_from] {
            for end in 0..MDR_ENDS {
                inputs.push(ended(code, owners, clearance, end));
            }
        }
    }
    inputs
}

fn ended(code: &[u16], owners: u8, clearance: u8, end: usize) -> Input {
    let next = code.len();
    let word = match end {
        3 => 0xD10F,
        5 => 0x5000,
        6 => 0x2F32,
        _ => HALT,
    };
    let image = with_word_10(&[code, &[word, HALT]].concat(), VALUE);
    let budget = match end {
        1 => next as u64,
        6 => next as u64 + 1,
        _ => 9,
    };
    let mut input = input(&image, &[], budget);
    input.owners[0x10] = owners;
    match end {
        0 => input.breakpoints = vec![next as u8],
        2 => input.owners[next] = !clearance,
        6 => input.owners[next] = clearance,
        _ => {}
    }
    Input { clearance, ..input }
}

// -- stored -----------------------------------------------------------------

pub const STORE_CASES: usize = 4 * 4 * 4 * 4;

/// Four words have no owner, one inside the clearance, one outside, and both; each is
/// loaded into a register. Then any three of the registers are stored, the first two over
/// one of the words, the third over the next, with budgets before and behind each store.
pub fn stores(number: usize) -> Vec<Input> {
    let mut random = Random::new(0x0455_0000_0000 + number as u64);
    let clearance = 1 + random.below(254) as u8;
    let inside = some_of(&mut random, clearance);
    let outside = some_of(&mut random, !clearance);
    let digit = |place: u32| (number / 4_usize.pow(place) % 4) as u16;
    let store = |place: u32, word: u16| 0x4120 + (digit(place) << 8) + word % 4;
    let mut image = vec![0x3120, 0x3221, 0x3322, 0x3423];
    image.extend([
        store(0, digit(3)),
        store(1, digit(3)),
        store(2, digit(3) + 1),
    ]);
    image.push(HALT);
    image.resize(0x20, 0);
    image.extend((0..4).map(|_| random.word()));
    let mut plain = input(&image, &[], 0);
    plain.owners[0x20..0x24].copy_from_slice(&[0, inside, outside, inside | outside]);
    plain.clearance = clearance;
    with_budgets(&plain, [0, 4, 5, 6, 7, 9])
}

/// One of these owners at least.
fn some_of(random: &mut Random, owners: u8) -> u8 {
    match owners & random.byte() {
        0 => owners,
        some => some,
    }
}
