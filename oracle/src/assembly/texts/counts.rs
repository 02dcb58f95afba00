//! Numbers of words around the most, with lines between them that take no
//! address, and every end of a text.

use crate::sizes::LISTING_WORDS;

const MOST: usize = LISTING_WORDS;
/// None, few, those around the most, and such as are small again once they are
/// cut to 8 or 16 bits.
const WORDS: [usize; 13] = [
    0,
    1,
    2,
    MOST - 2,
    MOST - 1,
    MOST,
    MOST + 1,
    MOST + 2,
    300,
    2 * MOST,
    2 * MOST + 1,
    65_536,
    65_537,
];
/// What stands before each line.
const BETWEEN: [&str; 7] = [
    "",
    "\n",
    "\n\n",
    "  \n",
    ";\n",
    "; HALT\n \n",
    ";L: HALT\n\n;\n",
];
/// What stands behind the last line feed, or in its place.
const ENDS: [&str; 9] = ["", "<", "\n", "\n\n", "  ", ";", "; HALT", "<  ", "<;"];

/// All texts of the family. An end that begins with "<" takes the last line feed
/// away.
pub fn all() -> Vec<Vec<u8>> {
    let mut texts = Vec::new();
    for words in WORDS {
        for between in BETWEEN {
            for end in ENDS.iter().take(if words > 1_000 { 2 } else { ENDS.len() }) {
                texts.push(text(words, between, end));
            }
        }
    }
    texts.extend(forms());
    texts.extend(behind_the_most());
    texts
}

/// So many words.
pub fn text(words: usize, between: &str, end: &str) -> Vec<u8> {
    let mut text = format!("{between}HALT\n").repeat(words);
    match end.strip_prefix('<') {
        Some(end) => {
            text.pop();
            text += end;
        }
        None => text += end,
    }
    text.into_bytes()
}

/// Each form around the most.
fn forms() -> Vec<Vec<u8>> {
    let forms = [
        ".word E000",
        "R0 = R0 + R0",
        "JUMP [LA] IF R0=R0",
        "LOAD R1, 2C",
    ];
    let mut texts = Vec::new();
    for form in forms {
        for words in MOST - 1..=MOST + 1 {
            let first = "LA: HALT\n";
            let rest = format!("{form}\n").repeat(words - 1);
            texts.push([first, &rest].concat().into_bytes());
            texts.push([&rest, first].concat().into_bytes());
        }
    }
    texts
}

/// What stands behind the most words: lines that take no address, a great many of
/// them, and then one word more.
fn behind_the_most() -> Vec<Vec<u8>> {
    let mut texts = Vec::new();
    for words in [MOST - 1, MOST] {
        for between in ["\n", ";\n", "   \n"] {
            for count in [1, 255, 256, 257, 70_000] {
                let free = between.repeat(count);
                let full = format!("{}{free}", "HALT\n".repeat(words));
                texts.push(format!("{full}HALT\n").into_bytes());
                texts.push(full.into_bytes());
            }
        }
    }
    texts
}
