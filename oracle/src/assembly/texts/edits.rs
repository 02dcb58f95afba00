//! Edits by chance of listings: one to three bytes or lines are changed, dropped,
//! doubled, put in or moved, lawful or not.

use crate::assembly::lines;
use crate::assembly::texts::listings;
use crate::random::Random;
use crate::sizes::LISTING_WORDS;
use crate::words::disassembly::disassemble_image;

pub const EDITED: usize = 24_000;

/// The lines of a listing before that of its first word, and the column at which
/// a line's comment begins.
const HEAD_LINES: usize = 4;
const COMMENT: usize = 34;
/// Bytes that a line may have, and some that it may not.
const BYTES: &[u8] = b"   0123456789ABCDEFLRZ:;,[]=+.ORDHALT\t\ra_";

pub fn text(number: usize) -> Vec<u8> {
    let mut random = Random::new(0xED17_0000_0000 + number as u64);
    let mut edited = begun(&mut random);
    for _ in 0..random.pick(&[1, 1, 2, 3]) {
        match random.below(2) {
            0 => edit_lines(&mut random, &mut edited),
            _ => edit_bytes(&mut random, &mut edited),
        }
    }
    let mut text = edited.join(&b'\n');
    if random.below(4) > 0 {
        text.push(b'\n');
    }
    text
}

/// The lines of a listing. Every second has no comments, so that edits meet what
/// counts; and now and then it is as long as one can be, or a line longer.
fn begun(random: &mut Random) -> Vec<Vec<u8>> {
    let long = random.below(8) == 0;
    let mut image = listings::any(random, if long { LISTING_WORDS } else { 16 });
    if long {
        image.resize(LISTING_WORDS - random.pick(&[0, 0, 1]), 0xD010);
    }
    let mut lines = listed(&image, random.below(2) == 0);
    if long && random.below(4) == 0 {
        lines.push(b"HALT".to_vec());
    }
    lines
}

/// The lines of an image's listing, whole or without head and comments.
fn listed(image: &[u16], whole: bool) -> Vec<Vec<u8>> {
    let listing = disassemble_image(image).into_bytes();
    let mut listed = lines::of(&listing);
    if !whole {
        let code = |line: &mut &[u8]| *line = line[..COMMENT].trim_ascii_end();
        listed.drain(..HEAD_LINES);
        listed.iter_mut().for_each(code);
    }
    listed.into_iter().map(<[u8]>::to_vec).collect()
}

/// Two lines exchanged, one dropped, doubled, moved or joined with the next, or a
/// free one put in.
fn edit_lines(random: &mut Random, edited: &mut Vec<Vec<u8>>) {
    if edited.is_empty() {
        return;
    }
    let (one, other) = (random.below(edited.len()), random.below(edited.len()));
    match random.below(6) {
        0 => edited.swap(one, other),
        1 => drop(edited.remove(one)),
        2 => edited.insert(other, edited[one].clone()),
        3 => {
            let line = edited.remove(one);
            edited.insert(other.min(edited.len()), line);
        }
        4 => {
            let line = edited.remove(one);
            if let Some(next) = edited.get_mut(one) {
                next.splice(..0, line);
            }
        }
        _ => edited.insert(other, random.pick(&["", "   ", "; INVENTED"]).into()),
    }
}

/// A byte of a line changed, dropped, doubled or put in, or a digit changed.
fn edit_bytes(random: &mut Random, edited: &mut [Vec<u8>]) {
    if edited.is_empty() {
        return;
    }
    let line = &mut edited[random.below(edited.len())];
    // Mostly before the comment.
    let length = match random.below(4) {
        0 => line.len(),
        _ => line.len().min(COMMENT),
    };
    let at = random.below(length + 1);
    let byte = match random.below(8) {
        0 => random.byte(),
        _ => random.pick(BYTES),
    };
    match random.below(6) {
        0 if at < line.len() => line[at] = byte,
        1 if at < line.len() => drop(line.remove(at)),
        2 if at < line.len() => line.insert(at, line[at]),
        3 => line.insert(at, byte),
        _ => edit_digit(random, line),
    }
}

/// One of the digits before the comment becomes another: a register, an address, a
/// label or a word.
fn edit_digit(random: &mut Random, line: &mut [u8]) {
    let code = line.iter_mut().take_while(|byte| **byte != b';');
    let mut digits: Vec<&mut u8> = code.filter(|byte| byte.is_ascii_digit()).collect();
    if !digits.is_empty() {
        let at = random.below(digits.len());
        *digits[at] = random.pick(b"0123456789ABCDEF");
    }
}
