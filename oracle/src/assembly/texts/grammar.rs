//! Each rule from both sides, and lines of every form with every single
//! deviation: a byte that is another, missing, twice or too many, a line that is
//! cut.

use crate::assembly::texts::rules;

/// A line of every form, with a label before it and a comment behind it. The
/// label that some of them refer to stands on the line before.
const FORMS: [&str; 17] = [
    "L1: LOAD R1, 2C ;x",
    "L1: LOAD R1, R2 ;x",
    "L1: LOAD R1, [2C] ;x",
    "L1: LOAD R1, [LA] ;x",
    "L1: STORE RB, [2C] ;x",
    "L1: STORE RB, [LA] ;x",
    "L1: R1 = RA + R3 ;x",
    "L1: NEGATE RC ;x",
    "L1: SHIFT R1 RIGHT 0F ;x",
    "L1: SHIFT RD LEFT A0 ;x",
    "L1: R4 = R5 AND R6 ;x",
    "L1: R7 = R8 OR R9 ;x",
    "L1: R0 = RF XOR RE ;x",
    "L1: JUMP [2C] IF RE=R0 ;x",
    "L1: HALT ;x",
    "L1: .word 5B0F ;x",
    EVERY_BYTE,
];

/// The form whose every place has every byte.
const EVERY_BYTE: &str = "L1: JUMP [LA] IF RE=R0 ;x";

/// What stands at each place of the other forms: the signs of the grammar, bytes
/// at the ends of the ranges of digits and letters, other blanks, no ASCII.
const BYTES: [u8; 30] = *b"\x00\t\n\r\x1F +,./09:;=@AFGLRZ[]af\x7F\x80\xA0\xFF";

/// What is put in at each place.
const INSERTED: [u8; 10] = *b" \t\r\n;:,A0]";

/// All texts of the family, some of which are the same.
pub fn all() -> Vec<Vec<u8>> {
    let mut texts: Vec<Vec<u8>> = rules::rows().map(|row| row.0.to_vec()).collect();
    for form in FORMS {
        let deviations = deviations(form.as_bytes());
        texts.push(behind_a_label(form.as_bytes()));
        texts.extend(deviations.iter().map(|line| behind_a_label(line)));
    }
    texts
}

/// The line behind one with the label LA.
fn behind_a_label(line: &[u8]) -> Vec<u8> {
    [b"LA: HALT\n", line, b"\n"].concat()
}

/// The line with every single deviation, at each of its places.
fn deviations(line: &[u8]) -> Vec<Vec<u8>> {
    let bytes: Vec<u8> = match line == EVERY_BYTE.as_bytes() {
        true => (0..=255).collect(),
        false => BYTES.to_vec(),
    };
    let mut lines = Vec::new();
    for at in 0..line.len() {
        let (before, behind) = (&line[..at], &line[at + 1..]);
        let with = |bytes: &[u8]| [before, bytes, behind].concat();
        lines.extend(bytes.iter().map(|byte| with(&[*byte])));
        lines.extend(INSERTED.map(|byte| with(&[byte, line[at]])));
        lines.push(with(&[]));
        lines.push(with(&[line[at]; 2]));
        lines.push(with(&[line[at] ^ 0x20]));
        lines.push(line[..at].to_vec());
        lines.push(line[at..].to_vec());
    }
    lines.extend(exchanged(line));
    lines
}

/// The line with two neighbours in each other's places.
fn exchanged(line: &[u8]) -> Vec<Vec<u8>> {
    let exchange = |at: usize| {
        let mut line = line.to_vec();
        line.swap(at, at + 1);
        line
    };
    (0..line.len() - 1).map(exchange).collect()
}
