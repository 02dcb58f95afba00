//! The grammar of a line: an optional label with its colon, and an instruction.
//! Blanks are tested by taking a line as the parts between them, so that what may
//! have no blank inside is one part.

use crate::assembly::lines;

/// The most capital letters or digits behind a label's L.
const LABEL: usize = 6;

/// A line that fits the grammar.
#[derive(Debug, PartialEq, Eq)]
pub enum Line<'a> {
    /// It is empty, spaces aside, or only a comment, and takes no address.
    Free,
    /// An instruction, with the label that names its address.
    Labelled(Option<&'a [u8]>, Instruction<'a>),
}

/// An instruction's word; where it refers to a label, that has the address that
/// belongs in the word's two last digits, which are 0 here.
#[derive(Debug, PartialEq, Eq)]
pub struct Instruction<'a> {
    pub word: u16,
    pub refers: Option<&'a [u8]>,
}

/// A line without its line feed; none where it breaks the grammar.
pub fn line(line: &[u8]) -> Option<Line<'_>> {
    match &lines::parts(line)[..] {
        [] => Some(Line::Free),
        [first, rest @ ..] if first.ends_with(b":") => {
            let label = label(&first[..first.len() - 1])?;
            Some(Line::Labelled(Some(label), instruction(rest)?))
        }
        parts => Some(Line::Labelled(None, instruction(parts)?)),
    }
}

/// L and one to six capital letters or digits.
fn label(name: &[u8]) -> Option<&[u8]> {
    let behind = name.strip_prefix(b"L")?;
    let is_lawful = |byte: &u8| byte.is_ascii_uppercase() || byte.is_ascii_digit();
    let lawful = (1..=LABEL).contains(&behind.len()) && behind.iter().all(is_lawful);
    lawful.then_some(name)
}

/// The forms that a listing line has, `.word` among them. Digits that the
/// instruction does not use are 0.
fn instruction<'a>(parts: &[&'a [u8]]) -> Option<Instruction<'a>> {
    match *parts {
        [b"LOAD", x, source] => load(x.strip_suffix(b",")?, source),
        [b"STORE", x, target] => bracketed(0x4, x.strip_suffix(b",")?, target),
        [x, b"=", y, sign, z] => {
            let digits = [operation(sign)?, register(x)?, register(y)?, register(z)?];
            Some(plain(digits))
        }
        [b"NEGATE", y] => Some(plain([0x7, 0, register(y)?, 0])),
        [b"SHIFT", x, b"RIGHT", yz] => with_byte(0x8, x, yz),
        [b"SHIFT", x, b"LEFT", yz] => with_byte(0x9, x, yz),
        [b"JUMP", target, b"IF", test] => bracketed(0xD, test.strip_suffix(b"=R0")?, target),
        [b"HALT"] => Some(plain([0xE, 0, 0, 0])),
        [b".word", digits] => Some(Instruction {
            word: number(digits, 4)?,
            refers: None,
        }),
        _ => None,
    }
}

/// LOAD of two digits, of a register, or of a word in memory. The register that
/// is loaded is y where the source is a register, else x.
fn load<'a>(target: &[u8], source: &'a [u8]) -> Option<Instruction<'a>> {
    match source.first()? {
        b'R' => Some(plain([0x2, 0, register(target)?, register(source)?])),
        b'[' => bracketed(0x3, target, source),
        _ => with_byte(0x1, target, source),
    }
}

/// The opcode of an instruction that joins y and z in x.
fn operation(sign: &[u8]) -> Option<u16> {
    match sign {
        b"+" => Some(0x6),
        b"AND" => Some(0xA),
        b"OR" => Some(0xB),
        b"XOR" => Some(0xC),
        _ => None,
    }
}

fn plain(digits: [u16; 4]) -> Instruction<'static> {
    Instruction {
        word: digits.iter().fold(0, |high, low| high << 4 | low),
        refers: None,
    }
}

/// An opcode with a register and two digits.
fn with_byte(opcode: u16, x: &[u8], yz: &[u8]) -> Option<Instruction<'static>> {
    let [y, z] = <[u8; 2]>::try_from(yz).ok()?;
    Some(plain([opcode, register(x)?, digit(y)?, digit(z)?]))
}

/// An opcode with a register and, in brackets, two digits or a label.
fn bracketed<'a>(opcode: u16, x: &[u8], operand: &'a [u8]) -> Option<Instruction<'a>> {
    let inside = operand.strip_prefix(b"[")?.strip_suffix(b"]")?;
    match label(inside) {
        Some(name) => Some(Instruction {
            refers: Some(name),
            ..plain([opcode, register(x)?, 0, 0])
        }),
        None => with_byte(opcode, x, inside),
    }
}

/// R and one digit.
fn register(name: &[u8]) -> Option<u16> {
    number(name.strip_prefix(b"R")?, 1)
}

/// A number of exactly so many digits.
fn number(digits: &[u8], count: usize) -> Option<u16> {
    let values: Option<Vec<u16>> = digits.iter().map(|byte| digit(*byte)).collect();
    let number = values?.iter().fold(0, |high, low| high << 4 | low);
    (digits.len() == count).then_some(number)
}

/// A hexadecimal digit; those above 9 are capitals.
fn digit(byte: u8) -> Option<u16> {
    match byte {
        b'0'..=b'9' => Some(u16::from(byte - b'0')),
        b'A'..=b'F' => Some(u16::from(byte - b'A') + 10),
        _ => None,
    }
}
