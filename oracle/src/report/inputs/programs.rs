//! Programs with hidden words, by chance: such as load, store, reckon and jump
//! over hidden and open words, and such as write over their own code.

use crate::machines::EDGES;
use crate::programs::{self, HALT, JUMP};
use crate::random::Random;
use crate::report::guarded::Input;
use crate::report::inputs::examples::owners_at;
use crate::report::inputs::readers;
use crate::sizes::{LARGEST_BUDGET, MEMORY_WORDS, WORD_BITS};

/// How many words the data of a program has.
pub const ZONE: usize = 8;

/// A program of any of these kinds with its owners, without breakpoints and with the
/// largest budget. One in four is for a reader whom its makers did not have in mind.
pub fn any(random: &mut Random) -> Input {
    let (image, marks) = match random.below(18) {
        0..=3 => with_data(random, straight),
        4..=6 => with_data(random, jumping),
        7 | 8 => with_data(random, testing),
        9..=11 => with_data(random, looping),
        12..=14 => changing(random),
        15 => opening(random),
        _ => plain(random),
    };
    let input = Input {
        image,
        owners: marks,
        budget: LARGEST_BUDGET,
        breakpoints: Vec::new(),
        clearance: 0,
    };
    match random.below(4) {
        0 => readers::for_any(random, input),
        _ => readers::owned(random, input),
    }
}

/// Makes the code of a program whose data is at `zone`; it ends before that.
type Code = fn(&mut Random, zone: usize) -> Vec<u16>;

/// Code, and data behind it or further up, some of which is hidden.
fn with_data(random: &mut Random, code: Code) -> (Vec<u16>, Vec<u8>) {
    let zone = random.pick(&[0x20, 0x20, 0x40, 0x80, MEMORY_WORDS - ZONE]);
    let mut image = code(random, zone);
    // Now and then the data is no part of the image, and so zero.
    if random.below(6) > 0 {
        image.resize(zone, 0);
        image.extend((0..ZONE).map(|_| value(random)));
    }
    (image, marks(random, zone))
}

pub fn value(random: &mut Random) -> u16 {
    match random.below(3) {
        0 => random.pick(&EDGES),
        // A word that is an instruction, should PC come to it.
        1 => instruction(random, 0x20),
        _ => random.word(),
    }
}

// -- marks ------------------------------------------------------------------

/// None, one, some or all; mostly of the data. A mark is the owner byte 01, until the
/// program gets its owners and its reader.
fn marks(random: &mut Random, zone: usize) -> Vec<u8> {
    match random.below(16) {
        0 => owners_at(&[]),
        1..=3 => owners_at(&[(zone + random.below(ZONE)) as u8]),
        4..=7 => zone_marks(random, zone, 2),
        8 | 9 => zone_marks(random, zone, 1),
        10 | 11 => one_in_code(random, zone),
        12 => by_chance(random, 2),
        13 => by_chance(random, 16),
        14 => from(random.below(40)),
        _ => vec![1; MEMORY_WORDS],
    }
}

/// One in so many of the data, by chance.
pub fn zone_marks(random: &mut Random, zone: usize, one_in: usize) -> Vec<u8> {
    let mut marks = owners_at(&[]);
    for mark in &mut marks[zone..zone + ZONE] {
        *mark = u8::from(random.below(one_in) == 0);
    }
    marks
}

/// Some of the data, and one word of the code.
fn one_in_code(random: &mut Random, zone: usize) -> Vec<u8> {
    let mut marks = zone_marks(random, zone, 2);
    marks[1 + random.below(20)] = 1;
    marks
}

/// One in so many of all words, by chance.
fn by_chance(random: &mut Random, one_in: usize) -> Vec<u8> {
    (0..MEMORY_WORDS)
        .map(|_| u8::from(random.below(one_in) == 0))
        .collect()
}

/// All from an address on.
fn from(address: usize) -> Vec<u8> {
    (0..MEMORY_WORDS)
        .map(|at| u8::from(at >= address))
        .collect()
}

// -- code -------------------------------------------------------------------

/// One instruction that neither jumps nor stops. It has few registers and few
/// addresses, so that owners meet.
fn instruction(random: &mut Random, zone: usize) -> u16 {
    let opcode = random.pick(&[
        1, 1, 2, 2, 3, 3, 3, 3, 4, 4, 4, 6, 6, 7, 8, 9, 0xA, 0xB, 0xC,
    ]);
    let low = match opcode {
        3 | 4 => address(random, zone),
        8 | 9 => random.pick(&[0, 1, 4, 15, 16, 17, 0xFF]),
        1 => random.pick(&[0, 1, 5, 0xFF]),
        _ => register(random) << 4 | register(random),
    };
    opcode << 12 | register(random) << 8 | low
}

/// An instruction that clears this register: XOR of one with itself, or a shift
/// that leaves nothing.
pub fn clearing(random: &mut Random, target: u16) -> u16 {
    let opcode = random.pick(&[8, 9, 0xC, 0xC]);
    let other = register(random);
    let low = match opcode {
        0xC => random.pick(&[target, other]) * 0x11,
        _ => random.pick(&[0x10, 0x11, 0x20, 0x80, 0xF0, 0xFF]),
    };
    opcode << 12 | target << 8 | low
}

/// One that looks like these, and leaves this register hidden where it was.
pub fn keeping(random: &mut Random, target: u16) -> u16 {
    let opcode = random.pick(&[6, 8, 9, 0xA, 0xB, 0xC]);
    let low = match opcode {
        8 | 9 => random.below(WORD_BITS.into()) as u16,
        0xC => target << 4 | (target + 1 + random.below(15) as u16) % 16,
        _ => target * 0x11,
    };
    opcode << 12 | target << 8 | low
}

fn register(random: &mut Random) -> u16 {
    match random.below(12) {
        0 => random.below(16) as u16,
        1 => 0,
        _ => 1 + random.below(3) as u16,
    }
}

pub fn address(random: &mut Random, zone: usize) -> u16 {
    match random.below(16) {
        0 => random.word() & 0xFF,
        _ => (zone + random.below(ZONE)) as u16,
    }
}

pub fn body(random: &mut Random, most: usize, zone: usize) -> Vec<u16> {
    (0..1 + random.below(most))
        .map(|_| instruction(random, zone))
        .collect()
}

/// HALT, an unknown word, or the zeros behind the code.
pub fn end(random: &mut Random) -> Option<u16> {
    match random.below(8) {
        0 => Some(random.pick(&[0x5000, 0xF000, 0x0000]) | random.word() & 0xFFF),
        1 => None,
        _ => Some(HALT),
    }
}

fn straight(random: &mut Random, zone: usize) -> Vec<u16> {
    let mut code = body(random, 24, zone);
    code.extend(end(random));
    code
}

/// A third of the words jump within the code, both ways.
fn jumping(random: &mut Random, zone: usize) -> Vec<u16> {
    let length = 4 + random.below(20);
    let mut code: Vec<u16> = (0..length)
        .map(|_| match random.below(3) {
            0 => JUMP | register(random) << 8 | random.below(length + 1) as u16,
            _ => instruction(random, zone),
        })
        .collect();
    code.extend(end(random));
    code
}

/// Loads two registers, R0 perhaps among them, and jumps forward on one of
/// them, now and then behind a few instructions more; in one of three, the first
/// is cleared for that.
fn testing(random: &mut Random, zone: usize) -> Vec<u16> {
    let loaded = [register(random), random.below(4) as u16];
    let mut code: Vec<u16> = loaded
        .iter()
        .map(|register| 0x3000 | register << 8 | address(random, zone))
        .collect();
    if random.below(2) == 0 {
        code.extend(body(random, 3, zone));
    }
    let mut asked = register(random);
    if random.below(3) == 0 {
        asked = loaded[0];
        code.push(clearing(random, asked));
    }
    let over = code.len() + 2 + random.below(3);
    code.push(JUMP | asked << 8 | over as u16);
    code.extend(body(random, 6, zone));
    code.extend(end(random));
    code
}

/// A loop that RF counts; its body leaves R0 and RD to RF alone.
fn looping(random: &mut Random, zone: usize) -> Vec<u16> {
    let times = 1 + random.below(12) as u16;
    let mut code = vec![0x1E00 | times, 0x1D01, 0x1F00];
    let start = code.len() as u16;
    code.extend(turn(random, 6, zone));
    // R0 is RE for the test, and zero again behind it.
    code.extend([0x6FFD, 0x200E]);
    let out = code.len() as u16 + 3;
    code.extend([0xDF00 | out, 0x1000, JUMP | start]);
    code.extend(end(random));
    code
}

/// A few instructions that write no register but R4 to R7.
pub fn turn(random: &mut Random, most: usize, zone: usize) -> Vec<u16> {
    let body = body(random, most, zone).into_iter();
    body.map(middle_registers).collect()
}

/// The same instruction, which writes no register but R4 to R7.
fn middle_registers(word: u16) -> u16 {
    match word >> 12 {
        2 | 7 => word & 0xFF7F | 0x0040,
        4 => word,
        _ => word & 0xF7FF | 0x0400,
    }
}

/// Writes a word of its data over its own code, with the data or the code
/// hidden or open: the run stops there, or goes through what was opened.
fn changing(random: &mut Random) -> (Vec<u16>, Vec<u8>) {
    let zone = 0x20;
    let mut image = body(random, 12, zone);
    image.extend(end(random));
    let target = 2 + random.below(image.len());
    let source = zone + random.below(ZONE);
    image.splice(0..0, [0x3100 | source as u16, 0x4100 | target as u16]);
    image.resize(zone, 0);
    image.extend((0..ZONE).map(|_| value(random)));
    image[source] = match random.below(4) {
        0 => HALT,
        1 => JUMP | random.below(8) as u16,
        2 => random.word(),
        _ => instruction(random, zone),
    };
    let mut marks = zone_marks(random, zone, 4);
    marks[target] = random.below(2) as u8;
    (image, marks)
}

/// Opens hidden code word by word, each by an instruction that it makes from
/// open words, and then goes through it.
fn opening(random: &mut Random) -> (Vec<u16>, Vec<u8>) {
    let count = 1 + random.below(4);
    let code = 2 * count;
    let source = 0x20;
    let mut image = Vec::new();
    for index in 0..count {
        image.push(0x3100 | (source + index) as u16);
        image.push(0x4100 | (code + index) as u16);
    }
    image.extend((0..count).map(|_| random.word()));
    image.extend(end(random));
    image.resize(source, 0);
    image.extend((0..count).map(|_| instruction(random, source)));
    let mut marks = owners_at(&[]);
    marks[code..code + count].fill(1);
    // Now and then one of them stays hidden.
    if random.below(3) == 0 {
        marks[source + random.below(count)] = 1;
    }
    (image, marks)
}

/// The machine's own programs, which know nothing of marks.
fn plain(random: &mut Random) -> (Vec<u16>, Vec<u8>) {
    let mut image = programs::any(random);
    image.truncate(MEMORY_WORDS);
    let marks = match random.below(4) {
        0 => owners_at(&[]),
        1 => owners_at(&[random.byte()]),
        2 => by_chance(random, 64),
        _ => from(image.len() / 2 + random.below(20)),
    };
    (image, marks)
}
