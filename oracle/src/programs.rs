//! Programs for whole machines: such as loop, store over their own code, jump
//! both ways, wrap PC, touch many addresses, and end in HALT, in an unknown
//! word or not at all.

use crate::machines;
use crate::random::Random;
use crate::sizes::{CODE_WORDS, MEMORY_WORDS};

pub const HALT: u16 = 0xE000;
/// JUMP on R0 to 00, which is always taken.
pub const JUMP: u16 = 0xD000;
/// ADD R0, R0, R0: as long as R0 is zero, it changes no register.
pub const IDLE: u16 = 0x6000;

/// A program of any of these kinds.
pub fn any(random: &mut Random) -> Vec<u16> {
    match random.below(10) {
        0 => words(random),
        1 | 2 => straight(random),
        3 | 4 => loops(random),
        5 => jumps(random),
        6 => wraps(random),
        7 => sweep(random),
        8 => patched(random),
        _ => whole(random),
    }
}

/// Words of any kind, of which one in eight is unknown.
fn words(random: &mut Random) -> Vec<u16> {
    (0..random.below(40)).map(|_| random.word()).collect()
}

/// Instructions one after the other, and an end.
fn straight(random: &mut Random) -> Vec<u16> {
    let mut program = body(random, 24);
    program.extend(end(random));
    program
}

/// A few instructions that neither jump nor stop.
fn body(random: &mut Random, most: usize) -> Vec<u16> {
    (0..1 + random.below(most))
        .map(|_| instruction(random))
        .collect()
}

/// One instruction that neither jumps nor stops; loads and stores often aim at
/// the program itself.
fn instruction(random: &mut Random) -> u16 {
    let opcode = random.pick(&[1, 1, 2, 3, 3, 4, 4, 6, 7, 8, 9, 0xA, 0xB, 0xC]);
    let word = machines::word_of(random, opcode);
    match random.below(3) {
        0 if opcode == 3 || opcode == 4 => word & 0xFF1F,
        _ => word,
    }
}

/// HALT, an unknown word, the word 0 that lies behind every program, or a jump
/// back to the start.
fn end(random: &mut Random) -> Option<u16> {
    match random.below(8) {
        0..=3 => Some(HALT | random.word() & 0xFFF),
        4 => Some(0x5000 | random.word() & 0xFFF),
        5 => Some(random.word() & 0xFFF),
        6 => None,
        _ => Some(JUMP | random.below(8) as u16),
    }
}

/// RF counts up from zero to RE, and the body is gone through so many times.
fn loops(random: &mut Random) -> Vec<u16> {
    let times = match random.below(4) {
        0 => random.below(256),
        _ => 1 + random.below(20),
    };
    let mut program = vec![0x1E00 | times as u16, 0x1D01, 0x1F00];
    let start = program.len() as u16;
    program.extend(body(random, 8).into_iter().map(low_registers));
    // R0 gets RE for the test, and is zero again behind it.
    program.extend([0x6FFD, 0x200E]);
    let out = program.len() as u16 + 3;
    program.extend([0xDF00 | out, 0x1000, JUMP | start]);
    program.extend(body(random, 4));
    program.extend(end(random));
    program
}

/// The same instruction, which writes registers under 8 and the upper half of
/// memory alone, so that the loop itself is kept.
fn low_registers(word: u16) -> u16 {
    match word >> 12 {
        1 | 3 | 8 | 9 => word & 0xF7FF,
        2 | 7 => word & 0xFF7F,
        4 => word | 0x0080,
        _ => word & 0xF777,
    }
}

/// Every second instruction jumps somewhere within the program, often on R0.
fn jumps(random: &mut Random) -> Vec<u16> {
    let length = 4 + random.below(40);
    let mut program: Vec<u16> = (0..length)
        .map(|_| match random.below(2) {
            0 => jump(random, length),
            _ => instruction(random),
        })
        .collect();
    program.extend(end(random));
    program
}

fn jump(random: &mut Random, length: usize) -> u16 {
    let register = match random.below(2) {
        0 => 0,
        _ => random.below(16) as u16,
    };
    JUMP | register << 8 | random.below(length + 1) as u16
}

/// Jumps near the last address and runs over it, so that PC wraps.
fn wraps(random: &mut Random) -> Vec<u16> {
    let from = CODE_WORDS - (1 + random.below(12));
    let mut program = vec![0; CODE_WORDS];
    program[0] = JUMP | from as u16;
    for word in &mut program[from..] {
        *word = instruction(random);
    }
    // The second time round, address 00 holds what a store may have left.
    if random.below(2) == 0 {
        program[CODE_WORDS - 1] = 0x4100 | random.below(4) as u16;
    }
    for (word, next) in program[1..].iter_mut().zip(body(random, 6)) {
        *word = next;
    }
    program
}

/// A machine full of stores, which leave an idle instruction, or an unknown
/// one, in many places. Where each writes over itself, or over the one before,
/// all addresses are touched.
fn sweep(random: &mut Random) -> Vec<u16> {
    let stride = random.pick(&[1, 1, 1, 3, 7, 85, 127, 128, 255]);
    let offset = match random.below(2) {
        0 => random.pick(&[0, 255]),
        _ => random.below(CODE_WORDS),
    };
    let mut program: Vec<u16> = (0..CODE_WORDS)
        .map(|at| 0x4100 | ((at * stride + offset) % CODE_WORDS) as u16)
        .collect();
    if random.below(2) == 0 {
        program[0] = 0x31FF;
        program[CODE_WORDS - 1] = random.pick(&[IDLE, IDLE, IDLE, 0x7020, HALT, JUMP]);
    }
    program
}

/// Loads a word, adds to it, and stores it over an instruction that is still
/// to come, or that the next turn comes to.
fn patched(random: &mut Random) -> Vec<u16> {
    let length = 8 + random.below(12);
    let mut program: Vec<u16> = (0..length).map(|_| instruction(random)).collect();
    let at = random.below(length) as u16;
    program[0] = 0x3100 | at;
    program[1] = 0x1200 | random.below(16) as u16;
    program[2] = 0x6112;
    program[3] = 0x4100 | at;
    program.push(match random.below(3) {
        0 => HALT,
        _ => JUMP | random.below(3) as u16,
    });
    program
}

/// All words of memory, or about as many, with jumps among them.
fn whole(random: &mut Random) -> Vec<u16> {
    let around = random.pick(&[-6, -1, 0, 1, 4]);
    (0..MEMORY_WORDS.wrapping_add_signed(around))
        .map(|_| match random.below(12) {
            0 => JUMP | random.word() & 0xFFF,
            1 if random.below(6) == 0 => random.word(),
            _ => instruction(random),
        })
        .collect()
}
