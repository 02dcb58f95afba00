//! Program images, as words and as bytes.

use crate::encoding::put_words;
use crate::random::Random;
use crate::sizes::LISTING_WORDS;

/// Words of any kind.
pub fn mixed(random: &mut Random, words: usize) -> Vec<u16> {
    (0..words).map(|_| random.word()).collect()
}

/// Mostly LOAD [yz], STORE and JUMP. The listing writes their operand in two
/// ways, by whether the address is inside the image, so they are aimed at its
/// two ends, at the word behind it and further out.
pub fn dense(random: &mut Random, words: usize) -> Vec<u16> {
    (0..words)
        .map(|_| match random.below(4) {
            0 => random.word(),
            _ => referring(random, words),
        })
        .collect()
}

/// Words of the opcodes that do not use all digits, with such a digit that is
/// not 0 and without: the texts of the first end in the word, and in a listing
/// they are `.word`.
pub const PARTLY_USED: [u16; 12] = [
    0x2F12, 0x2012, 0x2100, 0xEABC, 0xE000, 0xE001, 0xE010, 0xE100, 0x7011, 0x7010, 0x7001, 0x7100,
];

/// Mostly words of these opcodes, each digit now and then 0. The others refer to
/// them, so that they stand in lines with a label and without.
pub fn partly_used(random: &mut Random, words: usize) -> Vec<u16> {
    (0..words)
        .map(|_| match random.below(4) {
            0 => referring(random, words),
            _ => {
                let digits = random.pick(&[0xFFF, 0xFF0, 0xF0F, 0x0FF, 0x0F0, 0x000]);
                random.pick(&[0x2, 0x7, 0xE]) << 12 | random.word() & digits
            }
        })
        .collect()
}

fn referring(random: &mut Random, words: usize) -> u16 {
    let opcode = random.pick(&[0x3, 0x4, 0xD]);
    let register = random.below(16) as u16;
    let address = match random.below(6) {
        0 => 0,
        1 => words.saturating_sub(1),
        2 => words,
        3 => words + random.below(4),
        4 => random.below(words.max(1)),
        _ => random.below(LISTING_WORDS),
    };
    opcode << 12 | register << 8 | (address as u16 & 0xFF)
}

/// The form in which the port takes an image: high byte first.
pub fn bytes(words: &[u16]) -> Vec<u8> {
    let mut bytes = Vec::new();
    put_words(&mut bytes, words);
    bytes
}

/// The whole words of an image; an odd byte at the end is none.
pub fn whole_words(image: &[u8]) -> Vec<u16> {
    image
        .chunks_exact(2)
        .map(|pair| u16::from_be_bytes([pair[0], pair[1]]))
        .collect()
}

/// What the samples say in ASCII: two characters to a word.
pub fn saying_invented() -> Vec<u16> {
    whole_words(b"INVENTED SAMPLE.")
}
