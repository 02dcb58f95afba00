//! Listings of images of every length, and of images by chance, as the model of
//! listings writes them: assembling one gives its image.

use crate::images;
use crate::machines;
use crate::programs::JUMP;
use crate::random::Random;
use crate::sizes::LISTING_WORDS;
use crate::words::disassembly::disassemble_image;

/// How many images by chance there are.
const RANDOM_IMAGES: usize = 4_000;
/// Kinds of image that every length has.
const KINDS: usize = 4;
/// Images that have every word between them.
const EVERY_WORD: usize = 256;
/// Images in which each word says where it stands, or all say the same.
const CHOSEN: usize = 4;

pub const LISTINGS: usize = CHOSEN + EVERY_WORD + KINDS * (LISTING_WORDS + 1) + RANDOM_IMAGES;

/// The image of a listing.
pub fn image(number: usize) -> Vec<u16> {
    let mut random = Random::new(0x1157_1265_0000 + number as u64);
    let every_word = CHOSEN;
    let lengths = every_word + EVERY_WORD;
    let by_chance = lengths + KINDS * (LISTING_WORDS + 1);
    match number {
        _ if number < every_word => chosen(number),
        _ if number < lengths => page(number - every_word),
        _ if number < by_chance => of_kind(&mut random, number % KINDS, (number - lengths) / KINDS),
        _ => any(&mut random, LISTING_WORDS),
    }
}

/// What the model of listings writes.
pub fn text(number: usize) -> Vec<u8> {
    disassemble_image(&image(number)).into_bytes()
}

/// 256 jumps, each to its own address, and to the one that stands opposite; data
/// alone; and one address that all refer to.
fn chosen(number: usize) -> Vec<u16> {
    let addresses = 0..LISTING_WORDS as u16;
    let word = |address: u16| match number {
        0 => JUMP | address,
        1 => JUMP | (0xFF - address),
        2 => 0x5000 | address,
        _ => 0x31FF,
    };
    addresses.map(word).collect()
}

/// The 256 words that begin with the same two digits.
fn page(high: usize) -> Vec<u16> {
    (0..=255).map(|low| (high << 8) as u16 | low).collect()
}

fn of_kind(random: &mut Random, kind: usize, words: usize) -> Vec<u16> {
    match kind {
        0 => images::mixed(random, words),
        1 => images::dense(random, words),
        2 => images::partly_used(random, words),
        _ => (0..words).map(|_| instruction(random)).collect(),
    }
}

/// An instruction of any opcode.
fn instruction(random: &mut Random) -> u16 {
    let opcode = random.pick(&[1, 2, 3, 4, 6, 7, 8, 9, 0xA, 0xB, 0xC, 0xD, 0xE]);
    machines::word_of(random, opcode)
}

/// An image of any kind, of one word to the most.
pub fn any(random: &mut Random, most: usize) -> Vec<u16> {
    let (kind, words) = (random.below(KINDS), 1 + random.below(most));
    of_kind(random, kind, words)
}
