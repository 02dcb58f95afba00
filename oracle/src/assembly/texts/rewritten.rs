//! Lawful edits: an image written in other words than a listing's, of which each
//! is lawful. Blanks are longer, comments and free lines come and go, labels have
//! other names, addresses stand in digits, and instructions as `.word`.

use crate::assembly::texts::{labels, listings};
use crate::disasm;
use crate::isa::{Instruction, Opcode};
use crate::random::Random;
use crate::sizes::LISTING_WORDS;
use crate::words::disassembly::is_loose;
use std::collections::HashSet;

pub const REWRITTEN: usize = 6_000;

/// The image that a text is due to give.
pub fn image(number: usize) -> Vec<u16> {
    draw(number).0
}

pub fn text(number: usize) -> Vec<u8> {
    draw(number).1
}

fn draw(number: usize) -> (Vec<u16>, Vec<u8>) {
    let mut random = Random::new(0x2E_3217_0000 + number as u64);
    let most = match random.below(16) {
        0 => LISTING_WORDS,
        _ => 12,
    };
    let mut image = listings::any(&mut random, most);
    if most == LISTING_WORDS && random.below(2) == 0 {
        image.resize(LISTING_WORDS, 0xD0FF);
    }
    let text = written(&mut random, &image);
    (image, text)
}

/// A line for each word, between lines that take no address.
fn written(random: &mut Random, image: &[u16]) -> Vec<u8> {
    let names = names(random, image.len());
    let mut lines = Vec::new();
    for (address, word) in image.iter().enumerate() {
        lines.extend(free_lines(random));
        let label = names[address].as_ref();
        let label = label.map_or_else(String::new, |name| format!("{name}: "));
        let line = format!("{label}{}", instruction(random, *word, &names));
        lines.push(spaced(random, &line));
    }
    lines.extend(free_lines(random));
    for line in &mut lines {
        line.extend(comment(random));
    }
    let mut text = lines.join(&b'\n');
    if random.below(2) == 0 {
        text.push(b'\n');
    }
    text
}

/// The labels of the lines: some have none, and no two have the same.
fn names(random: &mut Random, lines: usize) -> Vec<Option<String>> {
    let mut taken = HashSet::new();
    let often = random.below(4);
    let name = |_| {
        let name = match random.below(2) {
            0 => labels::name(random),
            _ => format!("L{:X}", random.below(0x100_0000)),
        };
        let lawful = name.len() <= 7 && random.below(4) <= often;
        (lawful && taken.insert(name.clone())).then_some(name)
    };
    (0..lines).map(name).collect()
}

/// The original's text, in whose brackets a label may stand; or the word itself,
/// where the text does not keep it, and by chance.
fn instruction(random: &mut Random, word: u16, names: &[Option<String>]) -> String {
    let instruction = Instruction::from_word(word);
    let Some(opcode) = instruction.opcode().filter(|_| !is_loose(word)) else {
        return format!(".word {word:04X}");
    };
    if random.below(16) == 0 {
        return format!(".word {word:04X}");
    }
    let refers = [Opcode::LoadMemory, Opcode::StoreMemory, Opcode::Jump].contains(&opcode);
    let name = names.get(usize::from(instruction.yz())).cloned().flatten();
    let text = disasm::disassemble(word);
    match name.filter(|_| refers && random.below(4) > 0) {
        Some(name) => text.replace(&format!("[{:02X}]", instruction.yz()), &format!("[{name}]")),
        None => text,
    }
}

/// The line with one space or more for each that it has, and some at its ends.
fn spaced(random: &mut Random, line: &str) -> Vec<u8> {
    let most = random.pick(&[1, 1, 2, 6]);
    let mut spaces = |least: usize| " ".repeat(least + random.below(most));
    let mut wide = spaces(0);
    for part in line.split_inclusive(' ') {
        wide += part;
        if part.ends_with(' ') {
            wide += &spaces(0);
        }
    }
    wide += &spaces(0);
    wide.into_bytes()
}

/// None, or some lines that are empty, spaces aside.
fn free_lines(random: &mut Random) -> Vec<Vec<u8>> {
    let count = random.pick(&[0, 0, 0, 0, 1, 2]);
    (0..count)
        .map(|_| vec![b' '; random.pick(&[0, 0, 3])])
        .collect()
}

/// None, or any bytes behind a semicolon.
fn comment(random: &mut Random) -> Vec<u8> {
    match random.below(4) {
        0 | 1 => Vec::new(),
        2 => b"; LA: HALT ; x".to_vec(),
        _ => {
            let byte = |random: &mut Random| Some(random.byte()).filter(|byte| *byte != b'\n');
            let bytes = (0..random.below(12)).filter_map(|_| byte(random));
            [b';'].into_iter().chain(bytes).collect()
        }
    }
}
