//! The assembler. The original has none; beside the port's stands one in plain
//! Rust, as it may be written without proofs, and in one row the port's own
//! listing of the same words.

use crate::{medians, LISTING, ROUNDS, SETS};
use oracle::assembly::model;
use oracle::assembly::texts::FAMILIES;
use oracle::images;
use oracle::sizes::LISTING_WORDS;
use oracle::words::disassembly::disassemble_image;
use std::collections::HashMap;
use std::hint::black_box;

/// Enough for every image.
const IMAGE: usize = 2 * LISTING_WORDS;
/// Each so many-th text of the large families shows whether the plain assembler
/// does what the model does.
const EACH: usize = 5;

// -- in plain Rust ----------------------------------------------------------

/// The image of a text, or the number of its refusal.
fn assemble(text: &[u8]) -> Result<Vec<u16>, u8> {
    let mut words = Vec::with_capacity(LISTING_WORDS);
    let mut labels: HashMap<&[u8], u16> = HashMap::new();
    let mut references: Vec<(usize, &[u8])> = Vec::new();
    let mut doubled = false;
    for line in text.split(|byte| *byte == b'\n') {
        let code = line.split(|byte| *byte == b';').next().unwrap_or(line);
        let mut parts = code.split(|byte| *byte == b' ').filter(|it| !it.is_empty());
        let Some(mut first) = parts.next() else {
            continue;
        };
        let mut label = None;
        if let Some(name) = first.strip_suffix(b":") {
            label = Some(name).filter(|name| is_label(name));
            first = parts.next().filter(|_| label.is_some()).ok_or(11)?;
        }
        let (word, refers) = instruction(first, &mut parts).ok_or(11)?;
        if parts.next().is_some() {
            return Err(11);
        }
        if words.len() == LISTING_WORDS {
            return Err(13);
        }
        if let Some(name) = label {
            doubled |= labels.insert(name, words.len() as u16).is_some();
        }
        if let Some(name) = refers {
            references.push((words.len(), name));
        }
        words.push(word);
    }
    if doubled {
        return Err(12);
    }
    for (at, name) in references {
        words[at] |= labels.get(name).ok_or(12)?;
    }
    Ok(words)
}

fn is_label(name: &[u8]) -> bool {
    let is_lawful = |byte: &u8| byte.is_ascii_uppercase() || byte.is_ascii_digit();
    (2..=7).contains(&name.len()) && name[0] == b'L' && name.iter().all(is_lawful)
}

/// The word, and the label whose address is still missing in it.
type Parsed<'a> = (u16, Option<&'a [u8]>);

fn instruction<'a>(first: &[u8], parts: &mut impl Iterator<Item = &'a [u8]>) -> Option<Parsed<'a>> {
    let word = match first {
        b"LOAD" => {
            let x = register(parts.next()?.strip_suffix(b",")?)?;
            let source = parts.next()?;
            match source.first()? {
                b'[' => return bracketed(0x3000 | x << 8, source),
                b'R' => 0x2000 | x << 4 | register(source)?,
                _ => 0x1000 | x << 8 | number::<2>(source)?,
            }
        }
        b"STORE" => {
            let x = register(parts.next()?.strip_suffix(b",")?)?;
            return bracketed(0x4000 | x << 8, parts.next()?);
        }
        b"NEGATE" => 0x7000 | register(parts.next()?)? << 4,
        b"SHIFT" => {
            let x = register(parts.next()?)?;
            let opcode = match parts.next()? {
                b"RIGHT" => 0x8000,
                b"LEFT" => 0x9000,
                _ => return None,
            };
            opcode | x << 8 | number::<2>(parts.next()?)?
        }
        b"JUMP" => {
            let target = parts.next()?;
            let x = parts.next().filter(|part| *part == b"IF").and(parts.next());
            let x = register(x?.strip_suffix(b"=R0")?)?;
            return bracketed(0xD000 | x << 8, target);
        }
        b"HALT" => 0xE000,
        b".word" => number::<4>(parts.next()?)?,
        _ => {
            let x = register(first)?;
            parts.next().filter(|part| *part == b"=")?;
            let y = register(parts.next()?)?;
            let opcode = match parts.next()? {
                b"+" => 0x6000,
                b"AND" => 0xA000,
                b"OR" => 0xB000,
                b"XOR" => 0xC000,
                _ => return None,
            };
            opcode | x << 8 | y << 4 | register(parts.next()?)?
        }
    };
    Some((word, None))
}

fn bracketed(word: u16, operand: &[u8]) -> Option<Parsed<'_>> {
    let inside = operand.strip_prefix(b"[")?.strip_suffix(b"]")?;
    match is_label(inside) {
        true => Some((word, Some(inside))),
        false => Some((word | number::<2>(inside)?, None)),
    }
}

fn register(name: &[u8]) -> Option<u16> {
    number::<1>(name.strip_prefix(b"R")?)
}

fn number<const DIGITS: usize>(text: &[u8]) -> Option<u16> {
    let digits: &[u8; DIGITS] = text.try_into().ok()?;
    let mut number = 0;
    for byte in digits {
        let digit = match byte {
            b'0'..=b'9' => byte - b'0',
            b'A'..=b'F' => byte - b'A' + 10,
            _ => return None,
        };
        number = number << 4 | u16::from(digit);
    }
    Some(number)
}

// -- what is timed ----------------------------------------------------------

/// The listings of these images.
pub fn listings(sets: &[Vec<u16>]) -> Vec<Vec<u8>> {
    let listing = |words: &Vec<u16>| disassemble_image(words).into_bytes();
    sets.iter().map(listing).collect()
}

/// As many images of 256 jumps, which lead to all 256 addresses.
pub fn jumps() -> Vec<Vec<u16>> {
    let jump = |set: usize, address: usize| 0xD000 | ((37 * address + set) % LISTING_WORDS) as u16;
    let image = |set| {
        (0..LISTING_WORDS)
            .map(|address| jump(set, address))
            .collect()
    };
    (0..SETS).map(image).collect()
}

/// As many images of words without an opcode.
pub fn data() -> Vec<Vec<u16>> {
    let word = |set: usize, address: usize| 0x5000 | (address << 4 | set) as u16;
    let image = |set| {
        (0..LISTING_WORDS)
            .map(|address| word(set, address))
            .collect()
    };
    (0..SETS).map(image).collect()
}

/// Times mean nothing where the sides do not do the same: the plain assembler and
/// the port are held to the model, by what is timed and by texts of every kind.
pub fn agree(sets: &[Vec<u16>]) {
    for words in sets.iter().chain(&jumps()).chain(&data()) {
        let listing = disassemble_image(words).into_bytes();
        assert_eq!(assemble(&listing).as_ref(), Ok(words));
        same(&listing);
    }
    for family in &FAMILIES {
        let numbers = (0..(family.count)()).step_by(EACH);
        numbers.for_each(|number| same(&(family.text)(number)));
    }
}

fn same(text: &[u8]) {
    let due = model::assemble(text);
    assert_eq!(assemble(text), due, "{}", text.escape_ascii());
    let mut out = [0; IMAGE];
    let answer = archive::assemble(text, &mut out);
    match due {
        Ok(words) => assert_eq!(out[..answer as usize], images::bytes(&words)),
        Err(number) => assert_eq!(answer, -i64::from(number)),
    }
}

/// Assembling the listings of these images.
pub fn assembling(sets: &[Vec<u16>]) -> (f64, f64) {
    let texts = listings(sets);
    let mut out = [0; IMAGE];
    let mut rust = || {
        for text in &texts {
            black_box(assemble(black_box(text))).expect("it is taken");
        }
    };
    let mut ours = || {
        for text in &texts {
            black_box(archive::assemble(black_box(text), black_box(&mut out)));
        }
    };
    medians(ROUNDS, sets.len(), &mut rust, &mut ours)
}

/// The same, beside the port's own listing of these images.
pub fn to_the_listing(sets: &[Vec<u16>]) -> (f64, f64) {
    let texts = listings(sets);
    let images: Vec<Vec<u8>> = sets.iter().map(|words| images::bytes(words)).collect();
    let (mut out, mut listing) = ([0; IMAGE], vec![0; LISTING]);
    let mut listed = || {
        for image in &images {
            black_box(archive::listing(black_box(image), black_box(&mut listing)));
        }
    };
    let mut ours = || {
        for text in &texts {
            black_box(archive::assemble(black_box(text), black_box(&mut out)));
        }
    };
    medians(ROUNDS, sets.len(), &mut listed, &mut ours)
}
