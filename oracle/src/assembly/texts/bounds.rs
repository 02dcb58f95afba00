//! Texts around the longest that the program takes. The call has no bound: it
//! answers each of them.

use crate::assembly::program::LONGEST;

/// Around the bound, and well over it.
const LENGTHS: [usize; 6] = [
    LONGEST - 1,
    LONGEST,
    LONGEST + 1,
    LONGEST + 2,
    300_000,
    2 * LONGEST,
];

/// What a text begins with, what is repeated, and what it ends with: words, and
/// each refusal, at the very end too.
const SHAPES: [(&str, &str, &str); 16] = [
    (";", "x", ""),
    ("HALT;", "\u{e9}", ""),
    ("HALT\n;", " HALT", ""),
    ("", "\n", ""),
    ("", "\n", "HALT"),
    ("HALT\n", ";\n", "\nHALT\n"),
    ("", " ", ""),
    ("", " ", "HALT"),
    ("LA:", " ", "JUMP [LA] IF R0=R0"),
    ("LOAD", " ", "R1, R2\n"),
    ("", "      \n", "NEGATE R1\n"),
    ("", "\n", "LA:"),
    ("LOAD R1, [LA]\n", "\n", "LB: HALT"),
    ("LOAD R1, [LA]\n", "; x\n", "\nLA: HALT"),
    ("LA: HALT\n", "; x\n", "\nLA: HALT"),
    ("HALT x\n", "HALT\n", ""),
];

pub fn all() -> Vec<Vec<u8>> {
    let mut texts = Vec::new();
    for length in LENGTHS {
        texts.extend(SHAPES.map(|(first, filled, last)| filled_to(length, first, filled, last)));
        let words = "HALT\n".repeat(256);
        texts.push(filled_to(length, &words, "\n", ""));
        texts.push(filled_to(length, &words, "\n", "HALT"));
        texts.push(filled_to(length, &words, ";", ""));
        texts.push(vec![b'A'; length]);
        texts.push(vec![0; length]);
        texts.push(filled_to(length, "", "HALT\n", ""));
    }
    texts
}

/// Exactly so many bytes; what is repeated may be cut.
fn filled_to(length: usize, first: &str, filled: &str, last: &str) -> Vec<u8> {
    let between = length - first.len() - last.len();
    let filled = filled.bytes().cycle().take(between);
    first.bytes().chain(filled).chain(last.bytes()).collect()
}
