//! Texts that keep the whole word: document 02, Change 1. The original leaves
//! out the digits that an instruction does not use, so that 2F12 and 2012 read
//! the same; where such a digit is not 0, the text now ends in the word. A
//! listing has `.word` for such a word, by Change 4, so that it can be assembled.
//! This is the one place: all texts and listings that the port is held to come
//! from here, and from the original but for these two.

use crate::disasm;

/// The lines of a listing before that of its first word, and the columns of a
/// line that hold the text.
const HEAD_LINES: usize = 4;
const COLUMNS: std::ops::Range<usize> = 8..34;

/// The digits that a word's instruction does not use, as F. All three digits of
/// the other opcodes are in their texts, and a word without an opcode shows
/// whole in its own.
fn unused(word: u16) -> u16 {
    match word >> 12 {
        // LOAD y, z does not use x.
        0x2 => 0x0F00,
        // NEGATE uses neither x nor z.
        0x7 => 0x0F0F,
        // HALT uses none.
        0xE => 0x0FFF,
        _ => 0x0000,
    }
}

/// Whether a word carries a digit other than 0 that its instruction does not
/// use: for these words the text is no longer the original's.
pub fn is_loose(word: u16) -> bool {
    word & unused(word) != 0
}

/// The original's text, and behind that of a loose word the word itself.
pub fn disassemble(word: u16) -> String {
    let text = disasm::disassemble(word);
    match is_loose(word) {
        true => format!("{text} ; {word:04X}"),
        false => text,
    }
}

/// The original's listing, where loose words stand as those without an opcode do:
/// an ending behind ";" would be a comment, and the word would be lost. A loose
/// word refers to no address, so labels are the original's.
pub fn disassemble_image(words: &[u16]) -> String {
    let listing = disasm::disassemble_image(words);
    let mut lines: Vec<String> = listing.split_inclusive('\n').map(String::from).collect();
    assert_eq!(
        lines.len(),
        HEAD_LINES + words.len(),
        "a line for each word"
    );
    for (line, word) in lines[HEAD_LINES..].iter_mut().zip(words) {
        if is_loose(*word) {
            let text = format!(".word {word:04X}");
            line.replace_range(COLUMNS, &format!("{text:<0$}", COLUMNS.len()));
        }
    }
    lines.concat()
}
